//! The role engine for terminals written in Rust: ten calls on tables that the caller lends.
//!
//! Each call takes any tables and any numbers. It does what it says, or refuses with a code, and then the second number is zero and
//! nothing has changed. `include/adobethrum.h` says what the tables hold and which codes each call gives.
//!
//! Every `unsafe` below is safe for one reason: a slice is valid for as many numbers as it has, and a lent `&mut` overlaps nothing.

mod border;

use border::Slice;

/// How many numbers a state has.
pub const STATE: usize = 1602;

/// How many numbers a chain's list has.
pub const LIST: usize = 256;

/// What a call answers: a code, 0 for acceptance, and a second number.
#[repr(C)]
#[derive(Clone, Copy, Debug, PartialEq, Eq)]
pub struct Answer {
    pub code: u16,
    pub second: u16,
}

/// The policy: rules in rows of 11 numbers, kinds in rows of 7, rights in rows of 2.
#[derive(Clone, Copy, Debug)]
pub struct Policy<'a> {
    pub rules: &'a [u16],
    pub kinds: &'a [u16],
    pub rights: &'a [u16],
}

/// Writes all zeros. Refuses 2 for a wrong length only.
pub fn fresh(state: &mut [u16]) -> Answer {
    unsafe { border::adobethrum_fresh(state.as_mut_ptr(), state.len()) }
}

/// Declares safe calls on a policy, a state and numbers over those of the border.
macro_rules! calls {
    ($($(#[$doc:meta])* $name:ident, $border:ident, $state:ty, $pointer:ident, ($($number:ident),*);)*) => {$(
        $(#[$doc])*
        pub fn $name(policy: Policy, state: $state, $($number: u16),*) -> Answer {
            let [rules, kinds, rights] = [policy.rules, policy.kinds, policy.rights].map(Slice::of);
            unsafe {
                border::$border(
                    rules.start, rules.len, kinds.start, kinds.len, rights.start, rights.len,
                    state.$pointer(), state.len(), $($number),*
                )
            }
        }
    )*};
}

calls! {
    /// Grants the role by the lowest rule for it whose conditions all hold; second is the rule.
    activate, adobethrum_activate, &mut [u16], as_mut_ptr, (user, role);
    /// Adds a certificate, if the appointer is active in the kind's appointer role.
    appoint, adobethrum_appoint, &mut [u16], as_mut_ptr, (appointer, appointee, kind);
    /// Takes a certificate away, if mode and caller allow it; second is how many roles fell.
    revoke, adobethrum_revoke, &mut [u16], as_mut_ptr, (caller, appointee, kind, appointer);
    /// Takes a certificate away by the system; second is how many roles fell.
    withdraw, adobethrum_withdraw, &mut [u16], as_mut_ptr, (appointee, kind, appointer);
    /// Sets a fact to 0 or 1; second is how many roles fell.
    environment, adobethrum_environment, &mut [u16], as_mut_ptr, (fact, value);
    /// Drops all the user's roles; second is how many.
    logout, adobethrum_logout, &mut [u16], as_mut_ptr, (user);
    /// Second is 1 if some active role of the user has the right.
    invoke, adobethrum_invoke, &[u16], as_ptr, (user, privilege);
    /// Second is 1 if the privilege is in the active role's effective set.
    effective, adobethrum_effective, &[u16], as_ptr, (user, role, privilege);
}

/// Writes the role, the first role on which it rests, and so on, and zeros behind; second is how many roles. A refusal leaves the list.
pub fn chain(policy: Policy, state: &[u16], user: u16, role: u16, list: &mut [u16]) -> Answer {
    let [rules, kinds, rights] = [policy.rules, policy.kinds, policy.rights].map(Slice::of);
    unsafe {
        border::adobethrum_chain(
            rules.start, rules.len, kinds.start, kinds.len, rights.start, rights.len,
            state.as_ptr(), state.len(), user, role, list.as_mut_ptr(), list.len(),
        )
    }
}
