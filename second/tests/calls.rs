//! What each accepted call answers and leaves.

mod common;
use common::*;

#[test]
fn fresh_writes_zeros_and_refuses_only_a_wrong_length() {
    let mut anything = vec![9; 1602];
    let answer = second::fresh(&mut anything);
    assert_eq!((answer.code, answer.second), (0, 0));
    assert_eq!(anything, vec![0; 1602]);
    for length in [0, 1_601, 1_603] {
        let mut wrong = vec![9; length];
        let answer = second::fresh(&mut wrong);
        assert_eq!((answer.code, answer.second), (2, 0));
        assert_eq!(wrong, vec![9; length]);
    }
}

#[test]
fn activate_takes_the_lowest_numbered_satisfied_rule_for_the_role() {
    let policy = world().rule(2, 0, &[]).rule(1, 0, &[fact(0)]).rule(1, 0, &[fact(1)]).rule(
        1,
        0,
        &[fact(2)],
    );
    for (facts, answer) in
        [(&[0, 1, 2][..], (0, 1)), (&[1, 2], (0, 2)), (&[2], (0, 3)), (&[3], (5, 0))]
    {
        assert_eq!(policy.clone().with_state(state(facts, &[], &[])).activate(5, 1), answer);
    }
}

#[test]
fn activate_appends_its_row() {
    let mut w = world().rule(1, 0, &[]).rule(2, 0, &[]);
    w.activate(30, 2);
    w.activate(20, 1);
    w.activate(30, 1);
    assert_eq!(w.state, state(&[], &[[30, 2, 1], [20, 1, 0], [30, 1, 0]], &[]));
}

#[test]
fn a_condition_is_about_the_same_user() {
    let mut w = world().rule(1, 0, &[]).rule(2, 0, &[1]).rule(3, 0, &[kind(0)]).kind(1, 0, &[]);
    w.activate(20, 1);
    w.appoint(20, 20, 0);
    assert_eq!(w.activate(21, 2), (5, 0));
    assert_eq!(w.activate(21, 3), (5, 0));
    assert_eq!(w.activate(20, 2), (0, 1));
    assert_eq!(w.activate(20, 3), (0, 2));
}

#[test]
fn a_condition_on_a_kind_wants_that_kind() {
    let mut w = world().rule(9, 0, &[]).rule(1, 0, &[kind(1)]).kind(9, 0, &[]).kind(9, 0, &[]);
    w.activate(8, 9);
    w.appoint(8, 20, 0);
    assert_eq!(w.activate(20, 1), (5, 0));
    w.appoint(8, 20, 1);
    assert_eq!(w.activate(20, 1), (0, 1));
}

#[test]
fn all_prerequisite_roles_are_wanted() {
    let all = [[20, 1, 0], [20, 2, 1], [20, 3, 2], [20, 4, 3]];
    let policy = world()
        .rule(1, 0, &[])
        .rule(2, 0, &[])
        .rule(3, 0, &[])
        .rule(4, 0, &[])
        .rule(5, 1, &[kind(0)])
        .kind(9, 0, &[1, 2, 3, 4]);
    let with_rows = |rows: &[[u16; 3]]| {
        policy.clone().with_state(state(&[], rows, &[[20, 0, 8]])).activate(20, 5)
    };
    assert_eq!(with_rows(&all), (0, 4));
    for missing in 0..4 {
        let rows: Vec<_> = (0..4).filter(|&i| i != missing).map(|i| all[i]).collect();
        assert_eq!(with_rows(&rows), (5, 0));
    }
}

#[test]
fn all_eight_conditions_are_wanted() {
    let conditions: Vec<u16> = (0..8).map(fact).collect();
    let policy = world().rule(1, 0, &conditions);
    for missing in 0..8 {
        let facts: Vec<u16> = (0..8).filter(|&i| i != missing).collect();
        let mut w = policy.clone().with_state(state(&facts, &[], &[]));
        assert_eq!(w.activate(20, 1), (5, 0));
        w.environment(missing, 1);
        assert_eq!(w.activate(20, 1), (0, 0));
    }
}

#[test]
fn appoint_appends_the_certificate_and_one_may_appoint_oneself() {
    let mut w = world().rule(9, 0, &[]).kind(7, 2, &[]).kind(9, 2, &[1]);
    w.activate(8, 9);
    assert_eq!(w.appoint(8, 20, 1), (0, 0));
    assert_eq!(w.appoint(8, 8, 1), (0, 0));
    assert_eq!(w.appoint(8, 8, 0), (7, 0));
    assert_eq!(w.state, state(&[], &[[8, 9, 0]], &[[20, 1, 8], [8, 1, 8]]));
}

/// Kinds 0, 1, 2 have modes 0, 1, 2. User 8 issued one of each to user 20 and
/// has left; user 9 is in the appointer role.
fn three_modes() -> World {
    let w = world().rule(9, 0, &[]).kind(9, 0, &[]).kind(9, 1, &[]).kind(9, 2, &[]);
    w.with_state(state(&[], &[[9, 9, 0]], &[[20, 0, 8], [20, 1, 8], [20, 2, 8]]))
}

#[test]
fn mode_0_wants_the_appointer_active_or_not() {
    assert_eq!(three_modes().revoke(9, 20, 0, 8), (10, 0));
    assert_eq!(three_modes().revoke(20, 20, 0, 8), (10, 0));
    let mut w = three_modes();
    assert_eq!(w.revoke(8, 20, 0, 8), (0, 0));
    assert_eq!(w.certificates(), [[20, 1, 8], [20, 2, 8]]);
}

#[test]
fn mode_1_wants_a_caller_in_the_appointer_role() {
    assert_eq!(three_modes().revoke(8, 20, 1, 8), (10, 0));
    assert_eq!(three_modes().revoke(20, 20, 1, 8), (10, 0));
    let mut w = three_modes();
    assert_eq!(w.revoke(9, 20, 1, 8), (0, 0));
    assert_eq!(w.certificates(), [[20, 0, 8], [20, 2, 8]]);
}

#[test]
fn mode_2_always_refuses() {
    for caller in [8, 9, 20] {
        assert_eq!(three_modes().revoke(caller, 20, 2, 8), (10, 0));
    }
}

#[test]
fn withdraw_is_the_systems_whichever_the_mode() {
    let mut w = three_modes();
    for kind in [1, 2, 0] {
        assert_eq!(w.withdraw(20, kind, 8), (0, 0));
    }
    assert_eq!(w.state, state(&[], &[[9, 9, 0]], &[]));
}

#[test]
fn only_the_named_certificate_goes() {
    let certificates = [[20, 0, 8], [20, 1, 8], [21, 0, 8], [20, 0, 9]];
    let w = world().kind(9, 0, &[]).kind(9, 0, &[]).with_state(state(&[], &[], &certificates));
    let mut withdrawn = w.clone();
    assert_eq!(withdrawn.withdraw(20, 0, 8), (0, 0));
    assert_eq!(withdrawn.certificates(), [[20, 1, 8], [21, 0, 8], [20, 0, 9]]);
    let mut revoked = w;
    assert_eq!(revoked.revoke(9, 20, 0, 9), (0, 0));
    assert_eq!(revoked.certificates(), [[20, 0, 8], [20, 1, 8], [21, 0, 8]]);
}

#[test]
fn an_appointers_fall_leaves_the_certificate() {
    let mut w = world().rule(9, 1, &[fact(0)]).rule(1, 1, &[kind(0)]).kind(9, 0, &[]);
    w.environment(0, 1);
    w.activate(8, 9);
    w.appoint(8, 20, 0);
    w.activate(20, 1);
    assert_eq!(w.environment(0, 0), (0, 1));
    assert_eq!(w.state, state(&[], &[[20, 1, 1]], &[[20, 0, 8]]));
}

#[test]
fn environment_sets_one_fact() {
    let mut w = world();
    assert_eq!(w.environment(63, 1), (0, 0));
    assert_eq!(w.environment(0, 1), (0, 0));
    assert_eq!(w.environment(0, 1), (0, 0));
    assert_eq!(w.state, state(&[0, 63], &[], &[]));
    assert_eq!(w.environment(63, 0), (0, 0));
    assert_eq!(w.state, state(&[0], &[], &[]));
}

#[test]
fn a_fact_takes_the_rows_of_every_user_that_rests_on_it() {
    let mut w = world().rule(1, 1, &[fact(2)]).rule(2, 1, &[fact(3)]);
    w.environment(2, 1);
    w.environment(3, 1);
    for user in [5, 6, 7] {
        w.activate(user, 1);
        w.activate(user, 2);
    }
    assert_eq!(w.environment(2, 0), (0, 3));
    assert_eq!(w.rows(), [[5, 2, 1], [6, 2, 1], [7, 2, 1]]);
}

#[test]
fn logout_drops_the_users_rows_and_leaves_the_rest() {
    let rows = [[20, 1, 0], [8, 9, 1], [20, 9, 1], [21, 1, 0]];
    let certificates = [[20, 0, 8], [21, 0, 20]];
    let policy = world().rule(1, 1, &[fact(0)]).rule(9, 0, &[]).kind(9, 0, &[]);
    let mut w = policy.with_state(state(&[0], &rows, &certificates));
    assert_eq!(w.logout(20), (0, 2));
    assert_eq!(w.state, state(&[0], &[[8, 9, 1], [21, 1, 0]], &certificates));
    assert_eq!(w.logout(20), (0, 0));
    assert_eq!(w.logout(4_095), (0, 0));
    assert_eq!(w.state, state(&[0], &[[8, 9, 1], [21, 1, 0]], &certificates));
}

#[test]
fn invoke_wants_an_active_role_with_the_right() {
    let mut w = world().rule(1, 0, &[]).rule(2, 0, &[]).right(1, 5).right(2, 6).right(1, 5);
    w.activate(20, 1);
    w.activate(21, 2);
    assert_eq!(w.invoke(20, 5), (0, 1));
    assert_eq!(w.invoke(20, 6), (0, 0));
    assert_eq!(w.invoke(21, 5), (0, 0));
    assert_eq!(w.invoke(21, 6), (0, 1));
    w.activate(21, 1);
    assert_eq!(w.invoke(21, 5), (0, 1));
    assert_eq!(w.invoke(22, 5), (0, 0));
}

/// Role 5 rests on role 1 and on a certificate with prerequisites 2 and 3, and
/// was granted under role 4 too; role 1 rests on role 6. Each role r has the one
/// right 100 + r.
fn resting_on_much() -> World {
    let policy = world()
        .rule(5, 3, &[fact(0), 1, kind(0), 4])
        .rule(1, 1, &[6])
        .rule(2, 0, &[])
        .rule(3, 0, &[])
        .rule(4, 0, &[])
        .rule(6, 0, &[])
        .rule(1, 1, &[7])
        .rule(7, 0, &[])
        .kind(9, 0, &[2, 3]);
    let mut w = (1..=9).fold(policy, |w, role| w.right(role, 100 + role));
    w.state = state(&[0], &[], &[[20, 0, 8]]);
    for role in [6, 7, 4, 3, 2, 1, 5] {
        assert_eq!(w.activate(20, role).0, 0);
    }
    w
}

#[test]
fn effective_follows_membership_conditions_and_prerequisite_roles_in_turn() {
    let mut w = resting_on_much();
    for (role, effective) in
        [(5, &[5, 1, 6, 2, 3][..]), (1, &[1, 6]), (6, &[6]), (2, &[2]), (4, &[4]), (7, &[7])]
    {
        for other in 1..=9 {
            let second = u16::from(effective.contains(&other));
            assert_eq!(w.effective(20, role, 100 + other), (0, second), "{role} {other}");
        }
    }
}

/// Role 1 is held by rule 0, so rule 1 for the same role lends nothing.
#[test]
fn effective_asks_the_rule_by_which_the_role_is_held() {
    let policy = world().rule(1, 1, &[2]).rule(1, 1, &[3]).rule(2, 0, &[]).rule(3, 0, &[]);
    let mut w = policy.right(2, 12).right(3, 13);
    let both = |by| [[20, 2, 2], [20, 3, 3], [20, 1, by]];
    w.state = state(&[], &both(0), &[]);
    assert_eq!((w.effective(20, 1, 12), w.effective(20, 1, 13)), ((0, 1), (0, 0)));
    w.state = state(&[], &both(1), &[]);
    assert_eq!((w.effective(20, 1, 12), w.effective(20, 1, 13)), ((0, 0), (0, 1)));
}

fn chain_of(w: &mut World, user: u16, role: u16) -> Vec<u16> {
    let mut list = [777; 256];
    let (code, written) = w.chain(user, role, &mut list);
    assert_eq!(code, 0);
    assert!(list[written as usize..].iter().all(|&n| n == 0), "the rest of the list is zero");
    list[..written as usize].to_vec()
}

#[test]
fn chain_follows_the_first_membership_condition_that_names_a_role() {
    let mut w = resting_on_much();
    assert_eq!(chain_of(&mut w, 20, 5), [5, 1, 6]);
    assert_eq!(chain_of(&mut w, 20, 1), [1, 6]);
    assert_eq!(chain_of(&mut w, 20, 6), [6]);
}

#[test]
fn chain_passes_over_facts_and_kinds_without_prerequisites() {
    let mut w = world()
        .rule(1, 0, &[])
        .rule(2, 1, &[1])
        .rule(3, 4, &[fact(0), kind(0), kind(1), 1])
        .rule(4, 2, &[kind(0), fact(0), 3])
        .rule(5, 3, &[kind(0), 3, kind(1)])
        .kind(9, 0, &[])
        .kind(9, 0, &[2, 1]);
    w.state = state(&[0], &[], &[[20, 0, 8], [20, 1, 8]]);
    for role in 1..=5 {
        assert_eq!(w.activate(20, role), (0, role - 1));
    }
    assert_eq!(chain_of(&mut w, 20, 3), [3, 2, 1]);
    assert_eq!(chain_of(&mut w, 20, 4), [4]);
    assert_eq!(chain_of(&mut w, 20, 5), [5, 3, 2, 1]);
}

#[test]
fn chain_may_hold_all_256_roles() {
    let mut w = (1..256).fold(world().rule(0, 0, &[]), |w, role| w.rule(role, 1, &[role - 1]));
    for role in 0..256 {
        w.activate(20, role);
    }
    let expected: Vec<u16> = (0..256).rev().collect();
    assert_eq!(chain_of(&mut w, 20, 255), expected);
}

/// "Repeats are allowed": eight times the same role, 256 rows deep, must not
/// take eight times as long for each row.
#[test]
fn eightfold_repeats_256_rows_deep_are_answered_at_once() {
    let mut w =
        (1..256).fold(world().rule(0, 1, &[fact(0)]), |w, role| w.rule(role, 8, &[role - 1; 8]));
    w = w.right(0, 33).right(255, 34);
    w.environment(0, 1);
    for role in 0..256 {
        assert_eq!(w.activate(20, role), (0, role));
    }
    assert_eq!(w.effective(20, 255, 33), (0, 1));
    assert_eq!(w.effective(20, 254, 34), (0, 0));
    assert_eq!(w.environment(0, 0), (0, 256));
}
