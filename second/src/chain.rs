//! The chain of roles on which an active role rests.

use std::collections::BTreeSet;

use crate::effective::rules_held;
use crate::numbers::*;
use crate::policy::{Condition, Policy, Rule};
use crate::sets::NumberMap;
use crate::state::State;

/// For each active role of the user, the role that its row is followed to.
pub fn links(policy: &Policy, state: &State, user: User) -> NumberMap<Role, Role> {
    rules_held(policy, state, user)
        .into_iter()
        .filter_map(|(role, rule)| Some((role, followed_to(policy, rule)?)))
        .collect()
}

/// "its first membership condition that names a role, or a kind with s > 0
/// (then its first prerequisite role)"
fn followed_to(policy: &Policy, rule: &Rule) -> Option<Role> {
    rule.membership().find_map(|&condition| match condition {
        Condition::Role(role) => Some(role),
        Condition::Kind(kind) => policy.kind(kind)?.prerequisites.first().copied(),
        Condition::Fact(_) => None,
    })
}

/// "writes the role, then follows … until there is none"; nothing if "a role
/// would be written twice".
pub fn follow(links: &NumberMap<Role, Role>, first: Role) -> Option<Vec<Role>> {
    let mut chain = Vec::new();
    let mut written = BTreeSet::new();
    let mut next = Some(first);
    while let Some(role) = next {
        if !written.insert(role) {
            return None;
        }
        chain.push(role);
        next = links.get(&role).copied();
    }
    Some(chain)
}

/// "The rest of the list is zero."
pub fn write_list(chain: &[Role], list: &mut [u16]) {
    list.fill(0);
    for (place, &role) in list.iter_mut().zip(chain) {
        *place = role;
    }
}

#[cfg(test)]
mod tests {
    use super::*;

    #[test]
    fn a_chain_ends_where_there_is_no_link() {
        let links = NumberMap::from_iter([(5, 3), (3, 9), (4, 5)]);
        assert_eq!(follow(&links, 5), Some(vec![5, 3, 9]));
        assert_eq!(follow(&links, 9), Some(vec![9]));
    }

    /// Code 11 cannot come about in a sound state, so it is tested here.
    #[test]
    fn a_chain_that_comes_back_to_a_role_is_none() {
        let links = NumberMap::from_iter([(5, 3), (3, 9), (9, 3)]);
        assert_eq!(follow(&links, 5), None);
        assert_eq!(follow(&NumberMap::from_iter([(7, 7)]), 7), None);
    }
}
