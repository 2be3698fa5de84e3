//! A call as data, so that all sides, and both programs, are given the very same ones.

use crate::plain::unjudged;
use crate::{archive, indexed, plain};
use adobethrum::{Answer, Policy};

#[derive(Clone, Copy, Debug)]
pub enum Call {
    Fresh,
    /// User, role.
    Activate(u16, u16),
    /// Appointer, appointee, kind.
    Appoint(u16, u16, u16),
    /// Caller, appointee, kind, appointer.
    Revoke(u16, u16, u16, u16),
    /// Appointee, kind, appointer.
    Withdraw(u16, u16, u16),
    /// Fact, value.
    Environment(u16, u16),
    /// User.
    Logout(u16),
    /// User, privilege.
    Invoke(u16, u16),
    /// User, role, privilege.
    Effective(u16, u16, u16),
    /// User, role.
    Chain(u16, u16),
}

/// One side: answers a call on a policy, a state and a chain's list.
pub type Side = fn(Call, Policy, &mut [u16], &mut [u16]) -> Answer;

/// The verified call, through the wrapper of the border.
#[inline(never)]
pub fn ours(call: Call, policy: Policy, state: &mut [u16], list: &mut [u16]) -> Answer {
    match call {
        Call::Fresh => adobethrum::fresh(state),
        Call::Activate(user, role) => adobethrum::activate(policy, state, user, role),
        Call::Appoint(appointer, appointee, kind) => adobethrum::appoint(policy, state, appointer, appointee, kind),
        Call::Revoke(caller, appointee, kind, appointer) => adobethrum::revoke(policy, state, caller, appointee, kind, appointer),
        Call::Withdraw(appointee, kind, appointer) => adobethrum::withdraw(policy, state, appointee, kind, appointer),
        Call::Environment(fact, value) => adobethrum::environment(policy, state, fact, value),
        Call::Logout(user) => adobethrum::logout(policy, state, user),
        Call::Invoke(user, privilege) => adobethrum::invoke(policy, state, user, privilege),
        Call::Effective(user, role, privilege) => adobethrum::effective(policy, state, user, role, privilege),
        Call::Chain(user, role) => adobethrum::chain(policy, state, user, role, list),
    }
}

/// Declares the side of a baseline, whose calls answer `Ok(second)` or `Err(code)`.
macro_rules! baseline {
    ($(#[$doc:meta])* $engine:ident) => {
        $(#[$doc])*
        #[inline(never)]
        pub fn $engine(call: Call, policy: Policy, state: &mut [u16], list: &mut [u16]) -> Answer {
            let outcome = match call {
                Call::Fresh => $engine::fresh(state),
                Call::Activate(user, role) => $engine::activate(policy, state, user, role),
                Call::Appoint(appointer, appointee, kind) => $engine::appoint(policy, state, appointer, appointee, kind),
                Call::Revoke(caller, appointee, kind, appointer) => $engine::revoke(policy, state, caller, appointee, kind, appointer),
                Call::Withdraw(appointee, kind, appointer) => $engine::withdraw(policy, state, appointee, kind, appointer),
                Call::Environment(fact, value) => $engine::environment(policy, state, fact, value),
                Call::Logout(user) => $engine::logout(policy, state, user),
                Call::Invoke(user, privilege) => $engine::invoke(policy, state, user, privilege),
                Call::Effective(user, role, privilege) => $engine::effective(policy, state, user, role, privilege),
                Call::Chain(user, role) => $engine::chain(policy, state, user, role, list),
            };
            match outcome {
                Ok(second) => Answer { code: 0, second },
                Err(code) => Answer { code, second: 0 },
            }
        }
    };
}

baseline! {
    /// The call of the baseline that scans.
    plain
}
baseline! {
    /// The call of the baseline that scans, on tables that are known to be sound.
    unjudged
}
baseline! {
    /// The call of the baseline with an index.
    indexed
}

/// A side, and what it is called in a table.
pub type Named = (&'static str, Side);

/// The sides that judge, in the order of the table: ours, and those that stand beside it.
pub const JUDGING: &[Named] = &[
    ("ours", ours),
    ("plain", plain),
    ("indexed", indexed),
    #[cfg(before)]
    ("before", archive::before),
];

/// The sides that do not.
pub const NOT_JUDGING: &[Named] = &[("ours", archive::within), ("plain unjudged", unjudged)];

impl Call {
    /// The program's record of the call. Fresh and chain have none.
    pub fn record(self) -> String {
        match self {
            Call::Fresh | Call::Chain(..) => panic!("no record of the program makes this call"),
            Call::Activate(user, role) => format!("activate,{user},{role}\r\n"),
            Call::Appoint(appointer, appointee, kind) => format!("appoint,{appointer},{appointee},{kind}\r\n"),
            Call::Revoke(caller, appointee, kind, appointer) => format!("revoke,{caller},{appointee},{kind},{appointer}\r\n"),
            Call::Withdraw(appointee, kind, appointer) => format!("withdraw,{appointee},{kind},{appointer}\r\n"),
            Call::Environment(fact, value) => format!("env,{fact},{value}\r\n"),
            Call::Logout(user) => format!("logout,{user}\r\n"),
            Call::Invoke(user, privilege) => format!("invoke,{user},{privilege}\r\n"),
            Call::Effective(user, role, privilege) => format!("effective,{user},{role},{privilege}\r\n"),
        }
    }
}
