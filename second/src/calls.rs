//! The ten calls on raw tables and a raw state.
//!
//! In each call the refusals stand in the outline's order: "1, 2, 3 come
//! first, then: activate 4, 5, 6; appoint 7, 8, 6; revoke 9, 10; effective 12;
//! chain 12, 11."

use crate::chain::{follow, links, write_list};
use crate::conditions::Ground;
use crate::effective::{is_effective, may_invoke};
use crate::falls::let_fall;
use crate::numbers::*;
use crate::policy::{Kind, Mode, Policy, Tables};
use crate::refusal::{Answer, Refusal};
use crate::soundness::read_sound_state;
use crate::state::{active_roles, has_state_length, ActiveRow, Certificate, State};

/// The calls that an event of the program can make.
#[derive(Clone, Copy, Debug, PartialEq, Eq)]
pub enum Call {
    Activate { user: u16, role: u16 },
    Appoint { appointer: u16, appointee: u16, kind: u16 },
    Revoke { caller: u16, appointee: u16, kind: u16, appointer: u16 },
    Withdraw { appointee: u16, kind: u16, appointer: u16 },
    Environment { fact: u16, value: u16 },
    Logout { user: u16 },
    Invoke { user: u16, privilege: u16 },
    Effective { user: u16, role: u16, privilege: u16 },
}

pub fn call(t: &Tables, state: &mut [u16], call: Call) -> Answer {
    match call {
        Call::Activate { user, role } => activate(t, state, user, role),
        Call::Appoint { appointer, appointee, kind } => {
            appoint(t, state, appointer, appointee, kind)
        }
        Call::Revoke { caller, appointee, kind, appointer } => {
            revoke(t, state, caller, appointee, kind, appointer)
        }
        Call::Withdraw { appointee, kind, appointer } => {
            withdraw(t, state, appointee, kind, appointer)
        }
        Call::Environment { fact, value } => environment(t, state, fact, value),
        Call::Logout { user } => logout(t, state, user),
        Call::Invoke { user, privilege } => invoke(t, state, user, privilege),
        Call::Effective { user, role, privilege } => effective(t, state, user, role, privilege),
    }
}

/// "Fresh: writes all zeros; second 0. Refuses 2 only for a wrong length."
pub fn fresh(state: &mut [u16]) -> Answer {
    let outcome = Refusal::StateNotSound.unless(has_state_length(state)).map(|()| {
        State::fresh().write(state);
        0
    });
    Answer::from(outcome)
}

/// "Activate (user, role): takes the lowest-numbered rule for the role whose
/// conditions all hold, appends the row, second = the rule."
pub fn activate(t: &Tables, state: &mut [u16], user: u16, role: u16) -> Answer {
    change(t, state, |policy, state| {
        Refusal::ArgumentOutOfRange.unless(is_user(user) && is_role(role))?;
        Refusal::RoleAlreadyActive.unless(!state.is_active(user, role))?;
        let rule = Ground::of(policy, state)
            .lowest_satisfied_rule(user, role, &active_roles(&state.rows))
            .ok_or(Refusal::NoRuleSatisfied)?;
        Refusal::TableFull.unless(state.rows.len() < MOST_ACTIVE_ROWS)?;
        state.rows.push(ActiveRow { user, role, rule });
        Ok(rule)
    })
}

/// "Appoint (appointer, appointee, kind): the appointer must be active in the
/// kind's appointer role. Second 0. Appointing oneself is allowed."
pub fn appoint(t: &Tables, state: &mut [u16], appointer: u16, appointee: u16, kind: u16) -> Answer {
    change(t, state, |policy, state| {
        let certificate = Certificate { appointee, kind, appointer };
        let kind = kind_in_range(policy, &certificate)?;
        Refusal::NotInAppointerRole.unless(state.is_active(appointer, kind.appointer_role))?;
        Refusal::CertificateStands.unless(!state.stands(certificate))?;
        Refusal::TableFull.unless(state.certificates.len() < MOST_CERTIFICATES)?;
        state.certificates.push(certificate);
        Ok(0)
    })
}

/// "Revoke (caller, appointee, kind, appointer)"
pub fn revoke(
    t: &Tables,
    state: &mut [u16],
    caller: u16,
    appointee: u16,
    kind: u16,
    appointer: u16,
) -> Answer {
    change(t, state, |policy, state| {
        let certificate = Certificate { appointee, kind, appointer };
        Refusal::ArgumentOutOfRange.unless(is_user(caller))?;
        let kind = kind_in_range(policy, &certificate)?;
        Refusal::NoSuchCertificate.unless(state.stands(certificate))?;
        Refusal::RevocationNotAllowed.unless(may_revoke(state, kind, caller, appointer))?;
        Ok(take_back(policy, state, certificate))
    })
}

/// "Withdraw (appointee, kind, appointer): by the system, whichever the mode."
pub fn withdraw(
    t: &Tables,
    state: &mut [u16],
    appointee: u16,
    kind: u16,
    appointer: u16,
) -> Answer {
    change(t, state, |policy, state| {
        let certificate = Certificate { appointee, kind, appointer };
        kind_in_range(policy, &certificate)?;
        Refusal::NoSuchCertificate.unless(state.stands(certificate))?;
        Ok(take_back(policy, state, certificate))
    })
}

/// "Environment (fact, value 0 or 1)."
pub fn environment(t: &Tables, state: &mut [u16], fact: u16, value: u16) -> Answer {
    change(t, state, |policy, state| {
        Refusal::ArgumentOutOfRange.unless(is_fact(fact) && is_fact_value(value))?;
        if value == 1 {
            state.true_facts.insert(fact);
        } else {
            state.true_facts.remove(&fact);
        }
        Ok(let_fall(policy, state))
    })
}

/// "Logout (user): drops all the user's rows. Certificates the user issued or
/// holds stay. Without rows it is accepted with 0."
pub fn logout(t: &Tables, state: &mut [u16], user: u16) -> Answer {
    change(t, state, |_, state| {
        Refusal::ArgumentOutOfRange.unless(is_user(user))?;
        let before = state.rows.len();
        state.rows.retain(|row| row.user != user);
        Ok((before - state.rows.len()) as u16)
    })
}

/// "Invoke (user, privilege): second 1 if some active role of the user has the
/// right, else 0."
pub fn invoke(t: &Tables, state: &[u16], user: u16, privilege: u16) -> Answer {
    ask(t, state, |policy, state| {
        Refusal::ArgumentOutOfRange.unless(is_user(user) && is_privilege(privilege))?;
        Ok(may_invoke(policy, state, user, privilege).into())
    })
}

/// "Effective (user, role, privilege): definition 10."
pub fn effective(t: &Tables, state: &[u16], user: u16, role: u16, privilege: u16) -> Answer {
    ask(t, state, |policy, state| {
        let in_range = is_user(user) && is_role(role) && is_privilege(privilege);
        Refusal::ArgumentOutOfRange.unless(in_range)?;
        Refusal::RoleNotActive.unless(state.is_active(user, role))?;
        Ok(is_effective(policy, state, user, role, privilege).into())
    })
}

/// "Chain (user, role, a lent list of 256 numbers)"; "The second number, from 1
/// to 256, is the number of roles written."
pub fn chain(t: &Tables, state: &[u16], user: u16, role: u16, list: &mut [u16]) -> Answer {
    ask(t, state, |policy, state| {
        let in_range = is_user(user) && is_role(role) && is_chain_list(list);
        Refusal::ArgumentOutOfRange.unless(in_range)?;
        Refusal::RoleNotActive.unless(state.is_active(user, role))?;
        let roles = follow(&links(policy, state, user), role).ok_or(Refusal::RoleWrittenTwice)?;
        write_list(&roles, list);
        Ok(roles.len() as u16)
    })
}

/// "mode 0 wants caller = appointer, active or not; mode 1 wants the caller
/// active in the appointer role; mode 2 always refuses."
fn may_revoke(state: &State, kind: &Kind, caller: User, appointer: User) -> bool {
    match kind.mode {
        Mode::AppointerOnly => caller == appointer,
        Mode::AppointerRole => state.is_active(caller, kind.appointer_role),
        Mode::SystemOnly => false,
    }
}

/// "After revoke, withdraw and environment, unsupported rows fall"
fn take_back(policy: &Policy, state: &mut State, certificate: Certificate) -> u16 {
    state.certificates.retain(|&standing| standing != certificate);
    let_fall(policy, state)
}

/// The certificate's kind: "an argument out of range, a kind without a row".
fn kind_in_range<'p>(policy: &'p Policy, certificate: &Certificate) -> Result<&'p Kind, Refusal> {
    let in_range = is_user(certificate.appointee) && is_user(certificate.appointer);
    Refusal::ArgumentOutOfRange.unless(in_range)?;
    policy.kind(certificate.kind).ok_or(Refusal::ArgumentOutOfRange)
}

/// "a chain list not of 256"
fn is_chain_list(list: &[u16]) -> bool {
    list.len() == CHAIN_LENGTH
}

/// "The public calls check policy and state each time": 1 before 2, and both
/// before the call's own refusals.
fn read_both(t: &Tables, raw: &[u16]) -> Result<(Policy, State), Refusal> {
    let policy = Policy::read(t).ok_or(Refusal::PolicyMalformed)?;
    let state = read_sound_state(&policy, raw).ok_or(Refusal::StateNotSound)?;
    Ok((policy, state))
}

/// A call that only asks.
fn ask(
    t: &Tables,
    raw: &[u16],
    decide: impl FnOnce(&Policy, &State) -> Result<u16, Refusal>,
) -> Answer {
    Answer::from(read_both(t, raw).and_then(|(policy, state)| decide(&policy, &state)))
}

/// A call that changes the state if it is accepted, and else leaves it alone.
fn change(
    t: &Tables,
    raw: &mut [u16],
    decide: impl FnOnce(&Policy, &mut State) -> Result<u16, Refusal>,
) -> Answer {
    let outcome = read_both(t, raw).and_then(|(policy, mut state)| {
        let second = decide(&policy, &mut state)?;
        state.write(raw);
        Ok(second)
    });
    Answer::from(outcome)
}
