//! Privileges: those of a user's roles, and the effective ones of one role.

use std::collections::BTreeSet;

use crate::numbers::*;
use crate::policy::{Condition, Policy, Rule};
use crate::sets::NumberMap;
use crate::state::State;

/// "some active role of the user has the right"
pub fn may_invoke(policy: &Policy, state: &State, user: User, privilege: Privilege) -> bool {
    let roles = state.rows.iter().filter(|row| row.user == user).map(|row| row.role).collect();
    some_role_has_right(policy, &roles, privilege)
}

/// "Second 1 if in the role's effective set, else 0."
pub fn is_effective(
    policy: &Policy,
    state: &State,
    user: User,
    role: Role,
    privilege: Privilege,
) -> bool {
    some_role_has_right(policy, &roles_asked(policy, state, user, role), privilege)
}

fn some_role_has_right(policy: &Policy, roles: &BTreeSet<Role>, privilege: Privilege) -> bool {
    policy.rights.iter().any(|right| right.privilege == privilege && roles.contains(&right.role))
}

/// The rule by which the user holds each active role.
pub fn rules_held<'p>(policy: &'p Policy, state: &State, user: User) -> NumberMap<Role, &'p Rule> {
    let of_user = state.rows.iter().filter(|row| row.user == user);
    of_user.filter_map(|row| Some((row.role, policy.rule(row.rule)?))).collect()
}

/// The role and all roles that are asked in turn, each of them once.
fn roles_asked(policy: &Policy, state: &State, user: User, role: Role) -> BTreeSet<Role> {
    let held = rules_held(policy, state, user);
    let mut asked = BTreeSet::new();
    let mut waiting = vec![role];
    while let Some(role) = waiting.pop() {
        if asked.insert(role) {
            let rule = held.get(&role).copied();
            waiting.extend(rule.into_iter().flat_map(|rule| asked_by(policy, rule)));
        }
    }
    asked
}

/// "only membership conditions are followed"
fn asked_by<'p>(policy: &'p Policy, rule: &'p Rule) -> impl Iterator<Item = &'p Role> {
    rule.membership().flat_map(|condition| asked_through(policy, condition))
}

/// "A role asks its certificates, and a certificate asks its prerequisite roles
/// in turn"
fn asked_through<'p>(policy: &'p Policy, condition: &'p Condition) -> &'p [Role] {
    match condition {
        Condition::Role(role) => std::slice::from_ref(role),
        Condition::Kind(kind) => policy.kind(*kind).map_or(&[], |kind| &kind.prerequisites),
        Condition::Fact(_) => &[],
    }
}
