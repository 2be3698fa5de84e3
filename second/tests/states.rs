//! Which states are sound.

mod common;
use common::*;

const SOUND: u16 = 0;
const NOT_SOUND: u16 = 2;

/// Roles 1 and 2 are free to all (2 by two rules); 3 rests on role 1, 4 on kind
/// 0, 5 on fact 0; 6 rests on itself, 7 and 8 on each other.
fn policy() -> World {
    world()
        .rule(1, 0, &[])
        .rule(2, 0, &[])
        .rule(2, 0, &[])
        .rule(3, 1, &[1])
        .rule(4, 1, &[kind(0)])
        .rule(5, 1, &[fact(0)])
        .rule(6, 1, &[6])
        .rule(7, 1, &[8])
        .rule(8, 1, &[7])
        .kind(1, 0, &[])
        .kind(1, 0, &[])
}

fn of(facts: &[u16], rows: &[[u16; 3]], certificates: &[[u16; 3]]) -> u16 {
    policy().with_state(state(facts, rows, certificates)).health()
}

fn with_number(place: usize, number: u16) -> u16 {
    let mut w = policy();
    w.state[place] = number;
    w.health()
}

#[test]
fn all_zeros_is_sound() {
    assert_eq!(policy().health(), SOUND);
    assert_eq!(world().health(), SOUND);
}

#[test]
fn other_lengths_are_not() {
    for length in [0, 1, 63, 64, 65, 833, 834, 1_601, 1_603, 3_204] {
        assert_eq!(policy().with_state(vec![0; length]).health(), NOT_SOUND, "{length}");
    }
}

#[test]
fn each_fact_is_0_or_1() {
    for place in [0, 1, 63] {
        assert_eq!(with_number(place, 1), SOUND);
        assert_eq!(with_number(place, 2), NOT_SOUND);
        assert_eq!(with_number(place, 65_535), NOT_SOUND);
    }
}

#[test]
fn numbers_past_the_counts_are_zero() {
    for place in (65..833).chain(834..1602) {
        assert_eq!(with_number(place, 1), NOT_SOUND, "{place}");
    }
    let mut w = policy().with_state(state(&[], &[[20, 1, 0]], &[[20, 0, 8]]));
    assert_eq!(w.health(), SOUND);
    w.state[68] = 1;
    assert_eq!(w.health(), NOT_SOUND);
    w.state[68] = 0;
    w.state[837] = 1;
    assert_eq!(w.health(), NOT_SOUND);
}

#[test]
fn a_count_is_at_most_256() {
    let rows: Vec<_> = (0..256).map(|user| [user, 1, 0]).collect();
    let certificates: Vec<_> = (0..256).map(|user| [user, 0, 8]).collect();
    let full = policy().with_state(state(&[], &rows, &certificates));
    assert_eq!(full.health(), SOUND);
    for place in [64, 833] {
        for count in [255, 257, 65_535] {
            let mut w = full.clone();
            w.state[place] = count;
            assert_eq!(w.health(), NOT_SOUND, "{count} at {place}");
        }
    }
}

/// A count of one without its row: a row of zeros, for which no rule or kind is.
#[test]
fn rows_of_zeros_are_rows() {
    assert_eq!(with_number(64, 1), NOT_SOUND);
    let free_role_0 = world().rule(0, 0, &[]);
    assert_eq!(free_role_0.with_state(state(&[], &[[0, 0, 0]], &[])).health(), SOUND);
    assert_eq!(with_number(833, 1), SOUND);
    assert_eq!(world().with_state(state(&[], &[], &[[0, 0, 0]])).health(), NOT_SOUND);
}

#[test]
fn ranges_are_kept() {
    assert_eq!(of(&[], &[[4_095, 1, 0]], &[]), SOUND);
    assert_eq!(of(&[], &[[4_096, 1, 0]], &[]), NOT_SOUND);
    assert_eq!(of(&[], &[], &[[4_095, 0, 4_095]]), SOUND);
    assert_eq!(of(&[], &[], &[[4_096, 0, 8]]), NOT_SOUND);
    assert_eq!(of(&[], &[], &[[20, 0, 4_096]]), NOT_SOUND);
}

#[test]
fn no_user_and_role_stand_twice() {
    assert_eq!(of(&[], &[[20, 2, 1], [20, 1, 0], [21, 2, 2]], &[]), SOUND);
    assert_eq!(of(&[], &[[20, 2, 1], [20, 1, 0], [20, 2, 1]], &[]), NOT_SOUND);
    assert_eq!(of(&[], &[[20, 2, 1], [20, 1, 0], [20, 2, 2]], &[]), NOT_SOUND);
}

#[test]
fn no_certificate_stands_twice() {
    let different = [[20, 0, 8], [20, 1, 8], [21, 0, 8], [20, 0, 9], [8, 0, 20]];
    assert_eq!(of(&[], &[], &different), SOUND);
    assert_eq!(of(&[], &[], &[[20, 0, 8], [20, 1, 8], [20, 0, 8]]), NOT_SOUND);
}

#[test]
fn each_certificates_kind_has_a_row() {
    assert_eq!(of(&[], &[], &[[20, 1, 8]]), SOUND);
    assert_eq!(of(&[], &[], &[[20, 2, 8]]), NOT_SOUND);
}

#[test]
fn each_rows_rule_exists_and_has_its_role_as_target() {
    assert_eq!(of(&[], &[[20, 2, 2]], &[]), SOUND);
    assert_eq!(of(&[], &[[20, 2, 0]], &[]), NOT_SOUND);
    assert_eq!(of(&[], &[[20, 1, 9]], &[]), NOT_SOUND);
    assert_eq!(of(&[], &[[20, 1, 65_535]], &[]), NOT_SOUND);
}

#[test]
fn a_role_condition_wants_an_earlier_row_of_the_same_user() {
    assert_eq!(of(&[], &[[20, 1, 0], [20, 3, 3]], &[]), SOUND);
    assert_eq!(of(&[], &[[20, 3, 3]], &[]), NOT_SOUND);
    assert_eq!(of(&[], &[[20, 3, 3], [20, 1, 0]], &[]), NOT_SOUND);
    assert_eq!(of(&[], &[[21, 1, 0], [20, 3, 3]], &[]), NOT_SOUND);
}

#[test]
fn no_row_rests_on_itself_or_in_a_circle() {
    assert_eq!(of(&[], &[[20, 6, 6]], &[]), NOT_SOUND);
    assert_eq!(of(&[], &[[20, 7, 7], [20, 8, 8]], &[]), NOT_SOUND);
}

#[test]
fn a_kind_condition_wants_a_certificate_of_the_kind_for_the_user() {
    assert_eq!(of(&[], &[[20, 4, 4]], &[[20, 0, 8]]), SOUND);
    assert_eq!(of(&[], &[[20, 4, 4]], &[]), NOT_SOUND);
    assert_eq!(of(&[], &[[20, 4, 4]], &[[20, 1, 8]]), NOT_SOUND);
    assert_eq!(of(&[], &[[20, 4, 4]], &[[8, 0, 20]]), NOT_SOUND);
}

#[test]
fn a_fact_condition_wants_the_fact() {
    assert_eq!(of(&[0], &[[20, 5, 5]], &[]), SOUND);
    assert_eq!(of(&[1], &[[20, 5, 5]], &[]), NOT_SOUND);
}

#[test]
fn the_last_row_counts_as_the_first() {
    let rows: Vec<_> = (0..255).map(|user| [user, 1, 0]).collect();
    let with_last = |row| of(&[], &[&rows[..], &[row]].concat(), &[]);
    assert_eq!(with_last([7, 3, 3]), SOUND);
    assert_eq!(with_last([255, 3, 3]), NOT_SOUND);
}
