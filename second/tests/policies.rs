//! Which policies are malformed: each limit and each part of a row.

mod common;
use common::*;

const SOUND: u16 = 0;
const MALFORMED: u16 = 1;

fn with_rule(row: [u16; 11]) -> u16 {
    let mut w = world().kind(0, 0, &[]).kind(0, 0, &[]);
    w.rules.extend(row);
    w.health()
}

fn with_kind(row: [u16; 7]) -> u16 {
    let mut w = world();
    w.kinds.extend(row);
    w.health()
}

#[test]
fn a_table_may_be_empty() {
    assert_eq!(world().health(), SOUND);
}

#[test]
fn each_table_has_its_limit() {
    for (rules, kinds, rights, health) in [
        (512, 128, 2_048, SOUND),
        (513, 0, 0, MALFORMED),
        (0, 129, 0, MALFORMED),
        (0, 0, 2_049, MALFORMED),
    ] {
        let mut w = world();
        w.rules = vec![0; rules * 11];
        w.kinds = vec![0; kinds * 7];
        w.rights = vec![0; rights * 2];
        assert_eq!(w.health(), health, "{rules} {kinds} {rights}");
    }
}

#[test]
fn each_table_is_of_whole_rows() {
    for (length, health) in [(10, MALFORMED), (11, SOUND), (12, MALFORMED), (22, SOUND)] {
        let mut w = world();
        w.rules = vec![0; length];
        assert_eq!(w.health(), health, "rules of {length}");
    }
    for (length, health) in [(6, MALFORMED), (7, SOUND), (8, MALFORMED), (14, SOUND)] {
        let mut w = world();
        w.kinds = vec![0; length];
        assert_eq!(w.health(), health, "kinds of {length}");
    }
    for (length, health) in [(1, MALFORMED), (2, SOUND), (3, MALFORMED), (4, SOUND)] {
        let mut w = world();
        w.rights = vec![0; length];
        assert_eq!(w.health(), health, "rights of {length}");
    }
    // The part of a row past a full table.
    let mut w = world();
    w.rules = vec![0; 512 * 11 + 1];
    assert_eq!(w.health(), MALFORMED);
}

#[test]
fn a_rules_target_is_a_role() {
    assert_eq!(with_rule([255, 0, 0, 0, 0, 0, 0, 0, 0, 0, 0]), SOUND);
    assert_eq!(with_rule([256, 0, 0, 0, 0, 0, 0, 0, 0, 0, 0]), MALFORMED);
    assert_eq!(with_rule([65_535, 0, 0, 0, 0, 0, 0, 0, 0, 0, 0]), MALFORMED);
}

#[test]
fn n_is_at_most_8() {
    assert_eq!(with_rule([1, 8, 0, 2, 2, 2, 2, 2, 2, 2, 2]), SOUND);
    assert_eq!(with_rule([1, 9, 0, 2, 2, 2, 2, 2, 2, 2, 2]), MALFORMED);
    assert_eq!(with_rule([1, 65_535, 0, 2, 2, 2, 2, 2, 2, 2, 2]), MALFORMED);
}

#[test]
fn m_is_at_most_n() {
    assert_eq!(with_rule([1, 3, 3, 2, 2, 2, 0, 0, 0, 0, 0]), SOUND);
    assert_eq!(with_rule([1, 3, 4, 2, 2, 2, 0, 0, 0, 0, 0]), MALFORMED);
    assert_eq!(with_rule([1, 0, 1, 0, 0, 0, 0, 0, 0, 0, 0]), MALFORMED);
    assert_eq!(with_rule([1, 8, 8, 2, 2, 2, 2, 2, 2, 2, 2]), SOUND);
    assert_eq!(with_rule([1, 8, 9, 2, 2, 2, 2, 2, 2, 2, 2]), MALFORMED);
}

#[test]
fn conditions_past_n_are_0() {
    for place in 3..11 {
        let mut row = [1, 0, 0, 0, 0, 0, 0, 0, 0, 0, 0];
        row[place] = 2;
        assert_eq!(with_rule(row), MALFORMED, "n = 0, place {place}");
        row[1] = place as u16 - 2;
        assert_eq!(with_rule(row), SOUND, "n reaches place {place}");
    }
}

/// Two kinds stand in the table.
#[test]
fn a_condition_is_a_role_a_kind_with_a_row_or_a_fact() {
    for (condition, health) in [
        (0, SOUND),
        (255, SOUND),
        (256, SOUND),
        (257, SOUND),
        (258, MALFORMED),
        (383, MALFORMED),
        (384, SOUND),
        (447, SOUND),
        (448, MALFORMED),
        (65_535, MALFORMED),
    ] {
        assert_eq!(with_rule([1, 1, 0, condition, 0, 0, 0, 0, 0, 0, 0]), health, "{condition}");
        let last = [1, 8, 0, 0, 0, 0, 0, 0, 0, 0, condition];
        assert_eq!(with_rule(last), health, "{condition} in the last place");
    }
}

#[test]
fn condition_383_wants_128_kinds() {
    let kinds = |count| (0..count).fold(world().rule(1, 1, &[383]), |w, _| w.kind(0, 0, &[]));
    assert_eq!(kinds(128).health(), SOUND);
    assert_eq!(kinds(127).health(), MALFORMED);
}

/// The numbers of roles, kinds and facts do not mix.
#[test]
fn the_bounds_between_roles_kinds_and_facts() {
    let mut w = (0..128).fold(
        world().rule(255, 0, &[]).rule(1, 0, &[255]).rule(2, 0, &[256]).rule(3, 0, &[383]),
        |w, _| w.kind(255, 0, &[]),
    );
    w = w.rule(4, 0, &[384]).rule(5, 0, &[447]);
    let answers = |w: &World| (1..=5).map(|r| w.clone().activate(20, r).0).collect::<Vec<_>>();
    assert_eq!(answers(&w), [5, 5, 5, 5, 5]);
    w.activate(20, 255);
    assert_eq!(answers(&w), [0, 5, 5, 5, 5]);
    w.appoint(20, 20, 0);
    assert_eq!(answers(&w), [0, 0, 5, 5, 5]);
    w.appoint(20, 20, 127);
    assert_eq!(answers(&w), [0, 0, 0, 5, 5]);
    w.environment(0, 1);
    assert_eq!(answers(&w), [0, 0, 0, 0, 5]);
    w.environment(63, 1);
    assert_eq!(answers(&w), [0, 0, 0, 0, 0]);
}

#[test]
fn a_kinds_appointer_role_is_a_role() {
    assert_eq!(with_kind([255, 0, 0, 0, 0, 0, 0]), SOUND);
    assert_eq!(with_kind([256, 0, 0, 0, 0, 0, 0]), MALFORMED);
}

#[test]
fn a_mode_is_0_1_or_2() {
    assert_eq!(with_kind([1, 1, 0, 0, 0, 0, 0]), SOUND);
    assert_eq!(with_kind([1, 2, 0, 0, 0, 0, 0]), SOUND);
    assert_eq!(with_kind([1, 3, 0, 0, 0, 0, 0]), MALFORMED);
    assert_eq!(with_kind([1, 65_535, 0, 0, 0, 0, 0]), MALFORMED);
}

#[test]
fn s_is_at_most_4() {
    assert_eq!(with_kind([1, 0, 4, 2, 2, 2, 2]), SOUND);
    assert_eq!(with_kind([1, 0, 5, 2, 2, 2, 2]), MALFORMED);
}

#[test]
fn prerequisites_are_roles_and_past_s_they_are_0() {
    for place in 3..7 {
        let mut row = [1, 0, 0, 0, 0, 0, 0];
        row[place] = 255;
        assert_eq!(with_kind(row), MALFORMED, "s = 0, place {place}");
        row[2] = place as u16 - 2;
        assert_eq!(with_kind(row), SOUND, "s reaches place {place}");
        row[place] = 256;
        assert_eq!(with_kind(row), MALFORMED, "no role in place {place}");
    }
}

#[test]
fn a_right_is_a_role_and_a_privilege() {
    assert_eq!(world().right(255, 1_023).health(), SOUND);
    assert_eq!(world().right(256, 0).health(), MALFORMED);
    assert_eq!(world().right(0, 1_024).health(), MALFORMED);
    assert_eq!(world().right(1, 1).right(1, 1).health(), SOUND);
}

#[test]
fn the_last_row_counts_as_the_first() {
    let mut w = world().rule(1, 0, &[]).rule(2, 0, &[]);
    w.rules[11] = 256;
    assert_eq!(w.health(), MALFORMED);
    assert_eq!(world().kind(0, 0, &[]).kind(0, 3, &[]).health(), MALFORMED);
    assert_eq!(world().right(0, 0).right(0, 1_024).health(), MALFORMED);
}
