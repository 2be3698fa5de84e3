//! What falls once a certificate or a fact has changed.

use crate::conditions::Ground;
use crate::policy::Policy;
use crate::state::{active_roles, ActiveRow, State};

/// Lets the unsupported rows fall: "The second number is the rows lost".
pub fn let_fall(policy: &Policy, state: &mut State) -> u16 {
    let left = largest_supported(policy, state);
    let lost = state.rows.len() - left.len();
    state.rows = left;
    lost as u16
}

/// "the rows left are the largest set of the rows before in which each row's
/// membership conditions hold, "active" meaning in that set. Rows left keep
/// their order."
///
/// A row that does not hold within a set holds in no smaller one, so taking
/// such rows away until none is found ends at the largest set.
fn largest_supported(policy: &Policy, state: &State) -> Vec<ActiveRow> {
    let ground = Ground::of(policy, state);
    let mut left = state.rows.clone();
    loop {
        let active = active_roles(&left);
        let before = left.len();
        left.retain(|row| ground.supports(row, &active));
        if left.len() == before {
            return left;
        }
    }
}
