//! Sides that are archives of the engine, linked beside the border's: the calls without judging, and the calls of an earlier state.
//!
//! A slice is valid for as many numbers as it has, and a lent `&mut` overlaps nothing: this is all that an archive's calls ask of
//! pointers.

use crate::call::Call;
use adobethrum::{Answer, Policy};

/// Declares C functions on a policy, a state and numbers.
macro_rules! functions {
    ($prefix:literal: $($name:ident($state:ty, $($number:ident),*);)*) => {
        extern "C" {$(
            #[link_name = concat!($prefix, stringify!($name))]
            fn $name(
                rules: *const u16, rules_len: usize, kinds: *const u16, kinds_len: usize, rights: *const u16, rights_len: usize,
                state: $state, state_len: usize, $($number: u16),*
            ) -> Answer;
        )*}
    };
}

/// Calls a C function on a policy, a state and what follows.
macro_rules! lent {
    ($function:ident, $policy:ident, $state:ident, $($more:expr),*) => {{
        let Policy { rules, kinds, rights } = $policy;
        let [r, k, p] = [rules, kinds, rights].map(|table| (table.as_ptr(), table.len()));
        $function(r.0, r.1, k.0, k.1, p.0, p.1, $state.as_mut_ptr(), $state.len(), $($more),*)
    }};
}

/// Declares the side whose ten functions have the names of the border's behind another prefix.
macro_rules! archive {
    ($(#[$doc:meta])* $side:ident, $prefix:literal) => {
        $(#[$doc])*
        #[inline(never)]
        pub fn $side(call: Call, policy: Policy, state: &mut [u16], list: &mut [u16]) -> Answer {
            extern "C" {
                #[link_name = concat!($prefix, "fresh")]
                fn fresh(state: *mut u16, state_len: usize) -> Answer;
                #[link_name = concat!($prefix, "chain")]
                fn chain(
                    rules: *const u16, rules_len: usize, kinds: *const u16, kinds_len: usize, rights: *const u16, rights_len: usize,
                    state: *const u16, state_len: usize, user: u16, role: u16, list: *mut u16, list_len: usize,
                ) -> Answer;
            }
            functions! { $prefix:
                activate(*mut u16, user, role);
                appoint(*mut u16, appointer, appointee, kind);
                revoke(*mut u16, caller, appointee, kind, appointer);
                withdraw(*mut u16, appointee, kind, appointer);
                environment(*mut u16, fact, value);
                logout(*mut u16, user);
                invoke(*const u16, user, privilege);
                effective(*const u16, user, role, privilege);
            }
            // SAFETY: what is said of slices at the head of this file, and what the side asks of its callers.
            unsafe {
                match call {
                    Call::Fresh => fresh(state.as_mut_ptr(), state.len()),
                    Call::Activate(user, role) => lent!(activate, policy, state, user, role),
                    Call::Appoint(appointer, appointee, kind) => lent!(appoint, policy, state, appointer, appointee, kind),
                    Call::Revoke(caller, appointee, kind, appointer) => lent!(revoke, policy, state, caller, appointee, kind, appointer),
                    Call::Withdraw(appointee, kind, appointer) => lent!(withdraw, policy, state, appointee, kind, appointer),
                    Call::Environment(fact, value) => lent!(environment, policy, state, fact, value),
                    Call::Logout(user) => lent!(logout, policy, state, user),
                    Call::Invoke(user, privilege) => lent!(invoke, policy, state, user, privilege),
                    Call::Effective(user, role, privilege) => lent!(effective, policy, state, user, role, privilege),
                    Call::Chain(user, role) => lent!(chain, policy, state, user, role, list.as_mut_ptr(), list.len()),
                }
            }
        }
    };
}

archive! {
    /// The verified call without judging (`crates/within`). It asks for sound tables, so it is made only on tables that a side which
    /// judges has accepted: on others nothing is promised, not even that it keeps to them.
    within, "within_"
}

#[cfg(before)]
archive! {
    /// The verified call as it was in an earlier state, which judges. It takes any tables.
    before, "before_"
}
