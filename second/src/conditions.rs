//! "When a condition holds for a user"

use std::collections::BTreeSet;

use crate::numbers::*;
use crate::policy::{Condition, Policy};
use crate::sets::NumberSet;
use crate::state::{ActiveRoles, ActiveRow, State};

/// What conditions are judged on beside the active roles: the policy, the
/// facts, and who holds a certificate of which kind.
pub struct Ground<'a> {
    policy: &'a Policy,
    true_facts: &'a BTreeSet<Fact>,
    holders: NumberSet<(User, KindNumber)>,
}

impl<'a> Ground<'a> {
    pub fn of(policy: &'a Policy, state: &'a State) -> Ground<'a> {
        // "Any standing certificate of the kind serves": the appointer is left out.
        let holders = state.certificates.iter().map(|c| (c.appointee, c.kind)).collect();
        Ground { policy, true_facts: &state.true_facts, holders }
    }

    /// "a role, if the user is active in it; a kind, if some certificate of that
    /// kind stands for the user and the user is active in all the kind's
    /// prerequisite roles; a fact, if it is 1."
    pub fn holds(&self, condition: Condition, user: User, active: &ActiveRoles) -> bool {
        match condition {
            Condition::Role(role) => active.contains(&(user, role)),
            Condition::Kind(kind) => {
                self.has_certificate(user, kind) && self.has_prerequisites(user, kind, active)
            }
            Condition::Fact(fact) => self.true_facts.contains(&fact),
        }
    }

    /// "some certificate of that kind stands for the user"
    fn has_certificate(&self, user: User, kind: KindNumber) -> bool {
        self.holders.contains(&(user, kind))
    }

    /// "the user is active in all the kind's prerequisite roles"
    fn has_prerequisites(&self, user: User, kind: KindNumber, active: &ActiveRoles) -> bool {
        self.policy.kind(kind).is_some_and(|kind| {
            kind.prerequisites.iter().all(|&role| active.contains(&(user, role)))
        })
    }

    /// "takes the lowest-numbered rule for the role whose conditions all hold"
    pub fn lowest_satisfied_rule(
        &self,
        user: User,
        role: Role,
        active: &ActiveRoles,
    ) -> Option<RuleNumber> {
        (0..)
            .zip(&self.policy.rules)
            .filter(|(_, rule)| rule.target == role)
            .find(|(_, rule)| rule.conditions.iter().all(|&c| self.holds(c, user, active)))
            .map(|(number, _)| number)
    }

    /// Whether the membership conditions of the row's own rule hold.
    pub fn supports(&self, row: &ActiveRow, active: &ActiveRoles) -> bool {
        self.policy.rule(row.rule).is_some_and(|rule| {
            rule.membership().all(|&condition| self.holds(condition, row.user, active))
        })
    }
}
