//! The outline's session, and each item of "At the edges".

mod common;
use common::*;

const SESSION: [&str; 19] = [
    "rule,1,0",
    "rule,2,2,1,256",
    "rule,3,1,2,384",
    "rule,4,0",
    "kind,4,0",
    "right,3,7",
    "activate,10,4",
    "activate,20,1",
    "activate,20,2",
    "appoint,10,20,0",
    "activate,20,2",
    "activate,20,3",
    "env,0,1",
    "activate,20,3",
    "env,0,0",
    "invoke,20,7",
    "revoke,10,20,0,10",
    "invoke,20,7",
    "logout,20",
];

const ANSWERS: [&str; 13] =
    ["0,3", "0,0", "5,0", "0,0", "0,1", "5,0", "0,0", "0,2", "0,0", "0,1", "0,2", "0,0", "0,1"];

#[test]
fn the_session_as_a_program() {
    assert_eq!(output(&SESSION), ANSWERS.join("\r\n") + "\r\n");
}

#[test]
fn the_session_without_the_last_line_end() {
    let input = SESSION.join("\r\n");
    assert_eq!(text(second::run(input.as_bytes())), ANSWERS.join("\r\n") + "\r\n");
}

#[test]
fn the_session_as_calls() {
    let mut w = world()
        .rule(1, 0, &[])
        .rule(2, 2, &[1, kind(0)])
        .rule(3, 1, &[2, fact(0)])
        .rule(4, 0, &[])
        .kind(4, 0, &[])
        .right(3, 7);
    assert_eq!(w.activate(10, 4), (0, 3));
    assert_eq!(w.activate(20, 1), (0, 0));
    assert_eq!(w.activate(20, 2), (5, 0));
    assert_eq!(w.appoint(10, 20, 0), (0, 0));
    assert_eq!(w.activate(20, 2), (0, 1));
    assert_eq!(w.activate(20, 3), (5, 0));
    assert_eq!(w.environment(0, 1), (0, 0));
    assert_eq!(w.activate(20, 3), (0, 2));
    assert_eq!(w.environment(0, 0), (0, 0));
    assert_eq!(w.invoke(20, 7), (0, 1));
    assert_eq!(
        w.state,
        state(&[], &[[10, 4, 3], [20, 1, 0], [20, 2, 1], [20, 3, 2]], &[[20, 0, 10]])
    );
    assert_eq!(w.revoke(10, 20, 0, 10), (0, 2));
    assert_eq!(w.state, state(&[], &[[10, 4, 3], [20, 1, 0]], &[]));
    assert_eq!(w.invoke(20, 7), (0, 0));
    assert_eq!(w.logout(20), (0, 1));
    assert_eq!(w.state, state(&[], &[[10, 4, 3]], &[]));
}

#[test]
fn user_4095_is_accepted_and_4096_is_code_3() {
    let mut w = world().rule(1, 0, &[]);
    assert_eq!(w.activate(4_095, 1), (0, 0));
    assert_eq!(w.activate(4_096, 1), (3, 0));
}

#[test]
fn with_m_0_the_role_outlives_all_its_conditions_until_logout() {
    let mut w = world()
        .rule(0, 1, &[fact(1)])
        .rule(1, 0, &[0, kind(0), fact(0)])
        .rule(9, 0, &[])
        .kind(9, 0, &[]);
    w.environment(0, 1);
    w.environment(1, 1);
    w.activate(8, 9);
    assert_eq!(w.appoint(8, 20, 0), (0, 0));
    assert_eq!(w.activate(20, 0), (0, 0));
    assert_eq!(w.activate(20, 1), (0, 1));
    assert_eq!(w.withdraw(20, 0, 8), (0, 0));
    assert_eq!(w.environment(0, 0), (0, 0));
    assert_eq!(w.environment(1, 0), (0, 1));
    assert_eq!(w.rows(), [[8, 9, 2], [20, 1, 1]]);
    assert_eq!(w.logout(20), (0, 1));
    assert_eq!(w.rows(), [[8, 9, 2]]);
}

#[test]
fn a_state_of_1601_or_1603_numbers_is_code_2() {
    for length in [1_601, 1_603] {
        let mut w = world().rule(1, 0, &[]).with_state(vec![0; length]);
        assert_eq!(w.activate(1, 1), (2, 0));
    }
    assert_eq!(world().rule(1, 0, &[]).activate(1, 1), (0, 0));
}

/// 256 users in role 1, and nobody in role 2, which wants fact 0.
fn full_of_rows() -> World {
    let mut w = world().rule(1, 0, &[]).rule(2, 0, &[fact(0)]);
    for user in 0..256 {
        assert_eq!(w.activate(user, 1), (0, 0));
    }
    w
}

#[test]
fn the_256th_active_row_enters_and_the_257th_meets_6() {
    let mut w = full_of_rows();
    assert_eq!(w.rows().len(), 256);
    assert_eq!(w.rows()[255], [255, 1, 0]);
    assert_eq!(w.activate(256, 1), (6, 0));
}

#[test]
fn a_freed_row_serves_again() {
    let mut w = full_of_rows();
    assert_eq!(w.logout(3), (0, 1));
    assert_eq!(w.activate(256, 1), (0, 0));
    assert_eq!(w.activate(257, 1), (6, 0));
}

#[test]
fn no_satisfied_rule_and_a_full_table_is_5() {
    assert_eq!(full_of_rows().activate(256, 2), (5, 0));
}

#[test]
fn one_of_two_certificates_of_a_kind_withdrawn_and_nothing_falls() {
    let mut w = world().rule(9, 0, &[]).rule(1, 1, &[kind(0)]).kind(9, 0, &[]);
    for appointer in [7, 8] {
        w.activate(appointer, 9);
        assert_eq!(w.appoint(appointer, 20, 0), (0, 0));
    }
    assert_eq!(w.activate(20, 1), (0, 1));
    assert_eq!(w.withdraw(20, 0, 7), (0, 0));
    assert_eq!(w.rows(), [[7, 9, 0], [8, 9, 0], [20, 1, 1]]);
    assert_eq!(w.certificates(), [[20, 0, 8]]);
    assert_eq!(w.withdraw(20, 0, 8), (0, 1));
}

#[test]
fn a_fact_set_false_twice_loses_0_the_second_time() {
    let mut w = world().rule(1, 1, &[fact(5)]);
    w.environment(5, 1);
    w.activate(20, 1);
    assert_eq!(w.environment(5, 0), (0, 1));
    assert_eq!(w.environment(5, 0), (0, 0));
}

#[test]
fn a_rule_whose_only_condition_is_its_own_target_is_5() {
    assert_eq!(world().rule(3, 0, &[3]).activate(1, 3), (5, 0));
    assert_eq!(world().rule(3, 1, &[3]).activate(1, 3), (5, 0));
}

#[test]
fn a_malformed_policy_and_an_unsound_state_is_1() {
    assert_eq!(world().malformed().unsound().health(), 1);
    assert_eq!(world().unsound().health(), 2);
}

#[test]
fn kind_127_with_127_rows_is_3() {
    let mut w = (0..127).fold(world().rule(9, 0, &[]), |w, _| w.kind(9, 0, &[]));
    w.activate(8, 9);
    assert_eq!(w.appoint(8, 20, 127), (3, 0));
    assert_eq!(w.withdraw(20, 127, 8), (3, 0));
    assert_eq!(w.revoke(8, 20, 127, 8), (3, 0));
    let mut w = w.kind(9, 0, &[]);
    assert_eq!(w.appoint(8, 20, 127), (0, 0));
}

#[test]
fn a_certificates_prerequisite_falls_and_so_does_the_role_resting_on_it() {
    let mut w =
        world().rule(9, 0, &[]).rule(1, 1, &[fact(0)]).rule(2, 1, &[kind(0)]).kind(9, 0, &[1]);
    w.activate(8, 9);
    w.appoint(8, 20, 0);
    w.environment(0, 1);
    assert_eq!(w.activate(20, 1), (0, 1));
    assert_eq!(w.activate(20, 2), (0, 2));
    assert_eq!(w.environment(0, 0), (0, 2));
    assert_eq!(w.state, state(&[], &[[8, 9, 0]], &[[20, 0, 8]]));
}
