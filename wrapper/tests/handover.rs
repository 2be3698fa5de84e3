//! The handover, through the wrapper: what is answered is worked out from the rules.

use adobethrum::{activate, appoint, chain, effective, environment, fresh, invoke, logout, revoke, withdraw, Answer, Policy, LIST, STATE};

const RULES: [u16; 44] = [
    0, 0, 0, 0, 0, 0, 0, 0, 0, 0, 0, // on shift
    1, 0, 0, 0, 0, 0, 0, 0, 0, 0, 0, // manager
    2, 2, 2, 0, 256, 0, 0, 0, 0, 0, 0, // dashboard memory: on shift, and appointed to the car
    3, 2, 2, 2, 384, 0, 0, 0, 0, 0, 0, // wipe check: dashboard memory, while the car is in the bay
];
const KINDS: [u16; 7] = [1, 0, 0, 0, 0, 0, 0];
const RIGHTS: [u16; 4] = [2, 20, 3, 30];
const POLICY: Policy = Policy { rules: &RULES, kinds: &KINDS, rights: &RIGHTS };

fn told(code: u16, second: u16) -> Answer {
    Answer { code, second }
}

/// The technician has all three roles.
fn at_work() -> [u16; STATE] {
    let mut state = [7; STATE];
    assert_eq!(fresh(&mut state), told(0, 0));
    assert_eq!(environment(POLICY, &mut state, 0, 1), told(0, 0));
    assert_eq!(activate(POLICY, &mut state, 7, 1), told(0, 1));
    assert_eq!(activate(POLICY, &mut state, 41, 0), told(0, 0));
    assert_eq!(activate(POLICY, &mut state, 41, 2), told(5, 0));
    assert_eq!(appoint(POLICY, &mut state, 7, 41, 0), told(0, 0));
    assert_eq!(activate(POLICY, &mut state, 41, 2), told(0, 2));
    assert_eq!(activate(POLICY, &mut state, 41, 3), told(0, 3));
    state
}

#[test]
fn both_roles_fall_with_the_appointment() {
    let mut state = at_work();
    assert_eq!(invoke(POLICY, &state, 41, 30), told(0, 1));
    assert_eq!(effective(POLICY, &state, 41, 3, 20), told(0, 1));
    assert_eq!(withdraw(POLICY, &mut state, 41, 0, 7), told(0, 2));
    assert_eq!(invoke(POLICY, &state, 41, 30), told(0, 0));
    assert_eq!(logout(POLICY, &mut state, 41), told(0, 1));
}

#[test]
fn only_the_appointer_revokes() {
    let mut state = at_work();
    assert_eq!(revoke(POLICY, &mut state, 41, 41, 0, 7), told(10, 0));
    assert_eq!(revoke(POLICY, &mut state, 7, 41, 0, 7), told(0, 2));
    assert_eq!(revoke(POLICY, &mut state, 7, 41, 0, 7), told(9, 0));
}

#[test]
fn a_chain_fills_its_list_and_a_refusal_leaves_it() {
    let state = at_work();
    let mut list = [9; LIST];
    assert_eq!(chain(POLICY, &state, 41, 3, &mut list), told(0, 3));
    let mut wanted = [0; LIST];
    wanted[..3].copy_from_slice(&[3, 2, 0]);
    assert_eq!(list, wanted);
    let mut short = [9; LIST - 1];
    assert_eq!(chain(POLICY, &state, 41, 3, &mut short), told(3, 0));
    assert_eq!(short, [9; LIST - 1]);
}

#[test]
fn empty_tables_are_a_sound_policy() {
    let none = Policy { rules: &[], kinds: &[], rights: &[] };
    let mut state = [0; STATE];
    assert_eq!(activate(none, &mut state, 1, 1), told(5, 0));
    assert_eq!(invoke(none, &state, 1, 1), told(0, 0));
}

#[test]
fn a_refusal_changes_nothing() {
    let mut state = at_work();
    let before = state;
    let half = Policy { rules: &RULES[..43], ..POLICY };
    assert_eq!(logout(half, &mut state, 41), told(1, 0));
    assert_eq!(state, before);
    state[0] = 2;
    let spoilt = state;
    assert_eq!(logout(POLICY, &mut state, 41), told(2, 0));
    assert_eq!(state, spoilt);
    assert_eq!(fresh(&mut state[1..]), told(2, 0));
    assert_eq!(state, spoilt);
}
