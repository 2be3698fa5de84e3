//! Which states are sound under a policy.

use crate::conditions::Ground;
use crate::numbers::*;
use crate::policy::Policy;
use crate::sets::NumberSet;
use crate::state::{ActiveRoles, ActiveRow, Certificate, State};

/// The state that the numbers spell, if it is sound.
pub fn read_sound_state(policy: &Policy, raw: &[u16]) -> Option<State> {
    State::read(raw).filter(|state| is_sound(policy, state))
}

fn is_sound(policy: &Policy, state: &State) -> bool {
    certificates_are_sound(policy, &state.certificates) && rows_are_sound(policy, state)
}

/// "no certificate stands twice"
fn certificates_are_sound(policy: &Policy, certificates: &[Certificate]) -> bool {
    let mut earlier = NumberSet::default();
    certificates.iter().all(|certificate| {
        names_two_users(certificate)
            && has_known_kind(policy, certificate)
            && earlier.insert(*certificate)
    })
}

fn names_two_users(certificate: &Certificate) -> bool {
    is_user(certificate.appointee) && is_user(certificate.appointer)
}

/// "each certificate's kind has a row"
fn has_known_kind(policy: &Policy, certificate: &Certificate) -> bool {
    policy.kind(certificate.kind).is_some()
}

/// "each of its membership conditions holds, where "active" means active in an
/// earlier row of the same user"; "no (user, role) … stands twice"
fn rows_are_sound(policy: &Policy, state: &State) -> bool {
    let ground = Ground::of(policy, state);
    let mut earlier = ActiveRoles::default();
    state.rows.iter().all(|row| {
        names_user_and_role(row)
            && has_fitting_rule(policy, row)
            && ground.supports(row, &earlier)
            && earlier.insert((row.user, row.role))
    })
}

fn names_user_and_role(row: &ActiveRow) -> bool {
    is_user(row.user) && is_role(row.role)
}

/// "each active row's rule exists and has that role as target"
fn has_fitting_rule(policy: &Policy, row: &ActiveRow) -> bool {
    policy.rule(row.rule).is_some_and(|rule| rule.target == row.role)
}
