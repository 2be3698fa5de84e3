//! "Shortcuts that look right": a case for each that the shortcut would answer
//! otherwise.

mod common;
use common::*;

/// User 8 is in role 9 and has appointed user 20 to kind 0; user 20 is in role 1
/// by that certificate.
fn resting_on_a_certificate() -> World {
    let mut w = world().rule(9, 0, &[]).rule(1, 1, &[kind(0)]).kind(9, 0, &[]);
    assert_eq!(w.activate(8, 9), (0, 0));
    assert_eq!(w.appoint(8, 20, 0), (0, 0));
    assert_eq!(w.activate(20, 1), (0, 1));
    w
}

#[test]
fn the_roles_on_a_removed_certificate_go_with_it() {
    let after = state(&[], &[[8, 9, 0]], &[]);

    let mut w = resting_on_a_certificate();
    assert_eq!(w.revoke(8, 20, 0, 8), (0, 1));
    assert_eq!(w.state, after);

    let mut w = resting_on_a_certificate();
    assert_eq!(w.withdraw(20, 0, 8), (0, 1));
    assert_eq!(w.state, after);
}

/// Rule 1 would still be satisfied, and is for the same role; rule 0 is the one
/// that counts.
#[test]
fn a_held_role_is_tested_against_its_own_rule() {
    let mut w = world().rule(1, 1, &[fact(0)]).rule(1, 0, &[]);
    w.environment(0, 1);
    assert_eq!(w.activate(20, 1), (0, 0));
    assert_eq!(w.environment(0, 0), (0, 1));
    assert!(w.rows().is_empty());
}

/// And the other way round: rule 0 no longer matters to a row by rule 1.
#[test]
fn another_rules_conditions_do_not_count() {
    let mut w = world().rule(1, 1, &[fact(0)]).rule(1, 0, &[]);
    assert_eq!(w.activate(20, 1), (0, 1));
    assert_eq!(w.environment(0, 1), (0, 0));
    assert_eq!(w.environment(0, 0), (0, 0));
    assert_eq!(w.rows(), [[20, 1, 1]]);
}

#[test]
fn a_held_role_is_tested_against_the_first_m_conditions() {
    let mut w = world().rule(1, 1, &[fact(0), fact(1)]);
    w.environment(0, 1);
    w.environment(1, 1);
    assert_eq!(w.activate(20, 1), (0, 0));
    assert_eq!(w.environment(1, 0), (0, 0));
    assert_eq!(w.environment(0, 0), (0, 1));
}

#[test]
fn a_state_is_judged_by_each_rows_own_membership_conditions() {
    let policy = world().rule(1, 1, &[fact(0), fact(1)]).rule(1, 0, &[]);
    let by_rule = |rule, facts: &[u16]| {
        policy.clone().with_state(state(facts, &[[20, 1, rule]], &[])).health()
    };
    assert_eq!(by_rule(0, &[]), 2);
    assert_eq!(by_rule(0, &[1]), 2);
    assert_eq!(by_rule(0, &[0]), 0);
    assert_eq!(by_rule(1, &[]), 0);
}

#[test]
fn all_n_conditions_are_asked_at_grant() {
    let mut w = world().rule(1, 1, &[fact(0), fact(1)]);
    w.environment(0, 1);
    assert_eq!(w.activate(20, 1), (5, 0));
    w.environment(1, 1);
    assert_eq!(w.activate(20, 1), (0, 0));
}

/// Role 2 rests on a certificate with prerequisite role 1, which rests on fact 0.
fn with_prerequisite() -> World {
    world().rule(9, 0, &[]).rule(1, 1, &[fact(0)]).rule(2, 1, &[kind(0)]).kind(9, 0, &[1])
}

#[test]
fn prerequisite_roles_are_asked_for_at_grant_and_afterwards() {
    let mut w = with_prerequisite();
    w.activate(8, 9);
    w.appoint(8, 20, 0);
    w.environment(0, 1);
    assert_eq!(w.activate(20, 2), (5, 0));
    w.activate(20, 1);
    assert_eq!(w.activate(20, 2), (0, 2));
    assert_eq!(w.environment(0, 0), (0, 2));
}

#[test]
fn a_state_is_judged_by_prerequisite_roles_too() {
    let certificate = [[20, 0, 8]];
    let in_order = state(&[0], &[[20, 1, 1], [20, 2, 2]], &certificate);
    let without_prerequisite = state(&[0], &[[20, 2, 2]], &certificate);
    let prerequisite_later = state(&[0], &[[20, 2, 2], [20, 1, 1]], &certificate);
    let of_another_user = state(&[0], &[[21, 1, 1], [20, 2, 2]], &certificate);
    assert_eq!(with_prerequisite().with_state(in_order).health(), 0);
    assert_eq!(with_prerequisite().with_state(without_prerequisite).health(), 2);
    assert_eq!(with_prerequisite().with_state(prerequisite_later).health(), 2);
    assert_eq!(with_prerequisite().with_state(of_another_user).health(), 2);
}

/// Role 1 rests on fact 0, and each further role on the one before.
fn ladder(steps: u16) -> World {
    let mut w =
        (2..=steps).fold(world().rule(1, 1, &[fact(0)]), |w, role| w.rule(role, 1, &[role - 1]));
    w.environment(0, 1);
    for role in 1..=steps {
        assert_eq!(w.activate(20, role), (0, role - 1));
    }
    w
}

/// In one walk from the last row to the first only the first row would fall, and
/// after one layer of the cascade too.
#[test]
fn each_row_is_judged_after_its_support_fell() {
    for steps in [1, 2, 3, 5, 200] {
        let mut w = ladder(steps);
        assert_eq!(w.environment(0, 0), (0, steps));
        assert!(w.rows().is_empty());
    }
}

/// A cascade whose layers alternate between roles and certificates.
#[test]
fn the_cascade_goes_through_all_its_layers() {
    let mut w = world()
        .rule(9, 0, &[])
        .rule(1, 1, &[kind(0)])
        .rule(2, 1, &[1])
        .rule(3, 1, &[kind(1)])
        .rule(4, 2, &[9, 3])
        .kind(9, 0, &[])
        .kind(9, 0, &[9, 2]);
    w.activate(20, 9);
    w.appoint(20, 20, 0);
    w.appoint(20, 20, 1);
    for (role, rule) in [(1, 1), (2, 2), (3, 3), (4, 4)] {
        assert_eq!(w.activate(20, role), (0, rule));
    }
    assert_eq!(w.revoke(20, 20, 0, 20), (0, 4));
    assert_eq!(w.state, state(&[], &[[20, 9, 0]], &[[20, 1, 20]]));
}

/// Rows that do not rest on what fell stay, in their order, and the gaps close.
#[test]
fn what_does_not_rest_on_it_stays() {
    let mut w = world()
        .rule(1, 1, &[fact(0)])
        .rule(2, 1, &[1])
        .rule(3, 0, &[1])
        .rule(4, 1, &[3])
        .rule(1, 0, &[]);
    let by_rule_4 = [21, 1, 4];
    w.state = state(
        &[0, 1],
        &[[20, 1, 0], [20, 3, 2], by_rule_4, [20, 2, 1], [21, 2, 1], [20, 4, 3]],
        &[],
    );
    assert_eq!(w.environment(0, 0), (0, 2));
    assert_eq!(w.state, state(&[1], &[[20, 3, 2], by_rule_4, [21, 2, 1], [20, 4, 3]], &[]));
}
