//! Every code of each call, and the order of the codes.

mod common;
use common::*;
use second::Call::*;

/// Role 0 is free to all, role 1 rests on kind 0, role 2 was granted under fact
/// 0. The kinds 0, 1, 2 have appointer role 0 and modes 0, 1, 2.
fn policy() -> World {
    world()
        .rule(0, 0, &[])
        .rule(1, 1, &[kind(0)])
        .rule(2, 0, &[fact(0)])
        .kind(0, 0, &[])
        .kind(0, 1, &[])
        .kind(0, 2, &[])
        .right(0, 5)
}

/// User 8 in role 0 and user 20 in roles 1 and 2; fact 0 no longer holds. User
/// 8 issued a certificate of each kind to user 20.
fn usual() -> World {
    let rows = [[8, 0, 0], [20, 1, 1], [20, 2, 2]];
    policy().with_state(state(&[], &rows, &[[20, 0, 8], [20, 1, 8], [20, 2, 8]]))
}

/// Users 0 to 255 in role 0.
fn full_of_rows() -> World {
    let rows: Vec<_> = (0..256).map(|user| [user, 0, 0]).collect();
    policy().with_state(state(&[], &rows, &[]))
}

/// User 8 in role 0, and certificates of kind 0 for users 0 to 255 by user 8.
fn full_of_certificates() -> World {
    let certificates: Vec<_> = (0..256).map(|user| [user, 0, 8]).collect();
    policy().with_state(state(&[], &[[8, 0, 0]], &certificates))
}

fn chain(user: u16, role: u16) -> Asked {
    Asked::Chain { user, role, list: 256 }
}

/// Each call with each code that it alone can meet, and with 0 and 3.
fn each_code() -> Vec<(World, Asked, u16)> {
    let event = Asked::Event;
    vec![
        (usual(), event(Activate { user: 20, role: 0 }), 0),
        (usual(), event(Activate { user: 4_096, role: 0 }), 3),
        (usual(), event(Activate { user: 20, role: 2 }), 4),
        (usual(), event(Activate { user: 21, role: 1 }), 5),
        (usual(), event(Activate { user: 21, role: 3 }), 5),
        (full_of_rows(), event(Activate { user: 256, role: 0 }), 6),
        (usual(), event(Appoint { appointer: 8, appointee: 21, kind: 0 }), 0),
        (usual(), event(Appoint { appointer: 8, appointee: 21, kind: 3 }), 3),
        (usual(), event(Appoint { appointer: 21, appointee: 8, kind: 0 }), 7),
        (usual(), event(Appoint { appointer: 8, appointee: 20, kind: 0 }), 8),
        (full_of_certificates(), event(Appoint { appointer: 8, appointee: 256, kind: 0 }), 6),
        (usual(), event(Revoke { caller: 8, appointee: 20, kind: 0, appointer: 8 }), 0),
        (usual(), event(Revoke { caller: 8, appointee: 20, kind: 1, appointer: 8 }), 0),
        (usual(), event(Revoke { caller: 8, appointee: 20, kind: 3, appointer: 8 }), 3),
        (usual(), event(Revoke { caller: 8, appointee: 21, kind: 0, appointer: 8 }), 9),
        (usual(), event(Revoke { caller: 21, appointee: 20, kind: 0, appointer: 8 }), 10),
        (usual(), event(Revoke { caller: 21, appointee: 20, kind: 1, appointer: 8 }), 10),
        (usual(), event(Revoke { caller: 8, appointee: 20, kind: 2, appointer: 8 }), 10),
        (usual(), event(Withdraw { appointee: 20, kind: 2, appointer: 8 }), 0),
        (usual(), event(Withdraw { appointee: 20, kind: 3, appointer: 8 }), 3),
        (usual(), event(Withdraw { appointee: 20, kind: 0, appointer: 9 }), 9),
        (usual(), event(Environment { fact: 0, value: 1 }), 0),
        (usual(), event(Environment { fact: 0, value: 2 }), 3),
        (usual(), event(Logout { user: 20 }), 0),
        (usual(), event(Logout { user: 4_096 }), 3),
        (usual(), event(Invoke { user: 20, privilege: 5 }), 0),
        (usual(), event(Invoke { user: 20, privilege: 1_024 }), 3),
        (usual(), event(Effective { user: 20, role: 1, privilege: 5 }), 0),
        (usual(), event(Effective { user: 20, role: 1, privilege: 1_024 }), 3),
        (usual(), event(Effective { user: 20, role: 0, privilege: 5 }), 12),
        (usual(), chain(20, 1), 0),
        (usual(), chain(20, 256), 3),
        (usual(), Asked::Chain { user: 20, role: 1, list: 255 }, 3),
        (usual(), Asked::Chain { user: 20, role: 1, list: 257 }, 3),
        (usual(), chain(20, 0), 12),
    ]
}

#[test]
fn each_call_meets_each_of_its_codes() {
    for (mut world, asked, code) in each_code() {
        assert_eq!(world.ask(asked).0, code, "{asked:?}");
    }
}

#[test]
fn a_malformed_policy_comes_before_everything() {
    for (world, asked, _) in each_code() {
        let mut wrong_length = world.clone().malformed();
        wrong_length.state.pop();
        assert_eq!(world.clone().malformed().ask(asked), (1, 0), "{asked:?}");
        assert_eq!(world.malformed().unsound().ask(asked), (1, 0), "{asked:?}");
        assert_eq!(wrong_length.ask(asked), (1, 0), "{asked:?}");
    }
}

#[test]
fn an_unsound_state_comes_before_all_but_that() {
    for (world, asked, _) in each_code() {
        let mut shorter = world.clone();
        shorter.state.pop();
        let mut longer = world.clone();
        longer.state.push(0);
        assert_eq!(shorter.ask(asked), (2, 0), "{asked:?}");
        assert_eq!(longer.ask(asked), (2, 0), "{asked:?}");
        assert_eq!(world.unsound().ask(asked), (2, 0), "{asked:?}");
    }
}

/// Both 4 and 5 are given, 4 and 6, 5 and 6; and 3 with 5 and with 6. (An
/// argument out of range cannot be active already.)
#[test]
fn activate_goes_3_4_5_6() {
    assert_eq!(usual().activate(20, 256), (3, 0));
    assert_eq!(full_of_rows().activate(4_096, 0), (3, 0));
    assert_eq!(usual().activate(20, 2), (4, 0));
    assert_eq!(full_of_rows().activate(8, 0), (4, 0));
    assert_eq!(full_of_rows().activate(8, 1), (5, 0));
    assert_eq!(full_of_rows().activate(300, 0), (6, 0));
}

/// Role 2 is active, its rule fails, and the table is full.
#[test]
fn activate_with_4_5_and_6_at_once_is_4() {
    let mut rows: Vec<_> = (0..255).map(|user| [user, 0, 0]).collect();
    rows.push([20, 2, 2]);
    assert_eq!(policy().with_state(state(&[], &rows, &[])).activate(20, 2), (4, 0));
}

/// Both 7 and 8 are given, 7 and 6, 8 and 6; and 3 with 7 and with 6.
#[test]
fn appoint_goes_3_7_8_6() {
    assert_eq!(usual().appoint(21, 4_096, 0), (3, 0));
    assert_eq!(usual().appoint(21, 20, 3), (3, 0));
    assert_eq!(full_of_certificates().appoint(8, 4_096, 0), (3, 0));
    let mut appointer_left = usual();
    assert_eq!(appointer_left.logout(8), (0, 1));
    assert_eq!(appointer_left.appoint(8, 20, 0), (7, 0));
    assert_eq!(full_of_certificates().appoint(9, 300, 0), (7, 0));
    assert_eq!(full_of_certificates().appoint(8, 20, 0), (8, 0));
    assert_eq!(full_of_certificates().appoint(8, 300, 0), (6, 0));
}

#[test]
fn appoint_with_7_8_and_6_at_once_is_7() {
    let mut w = full_of_certificates();
    assert_eq!(w.logout(8), (0, 1));
    assert_eq!(w.appoint(8, 20, 0), (7, 0));
}

/// Both 9 and 10 are given; 3 with 9, and 3 with 10.
#[test]
fn revoke_goes_3_9_10() {
    assert_eq!(usual().revoke(8, 4_096, 0, 8), (3, 0));
    assert_eq!(usual().revoke(8, 20, 0, 4_096), (3, 0));
    assert_eq!(usual().revoke(4_096, 20, 2, 8), (3, 0));
    assert_eq!(usual().revoke(21, 22, 0, 8), (9, 0));
    assert_eq!(usual().revoke(8, 22, 2, 8), (9, 0));
    assert_eq!(usual().revoke(21, 20, 0, 8), (10, 0));
}

#[test]
fn withdraw_goes_3_9() {
    assert_eq!(usual().withdraw(20, 3, 9), (3, 0));
    assert_eq!(usual().withdraw(20, 0, 9), (9, 0));
}

#[test]
fn effective_and_chain_go_3_12() {
    assert_eq!(usual().effective(20, 0, 1_024), (3, 0));
    assert_eq!(usual().effective(20, 0, 1_023), (12, 0));
    assert_eq!(usual().effective(8, 1, 5), (12, 0));
    assert_eq!(usual().ask(Asked::Chain { user: 20, role: 0, list: 255 }), (3, 0));
    assert_eq!(usual().ask(chain(20, 0)), (12, 0));
    assert_eq!(usual().ask(chain(8, 1)), (12, 0));
}

/// Each call from a list of arguments, and the greatest of each argument.
type Arguments = (fn(&[u16]) -> Asked, &'static [u16]);

const ARGUMENTS: [Arguments; 9] = [
    (|a| Asked::Event(Activate { user: a[0], role: a[1] }), &[4_095, 255]),
    (
        |a| Asked::Event(Appoint { appointer: a[0], appointee: a[1], kind: a[2] }),
        &[4_095, 4_095, 127],
    ),
    (
        |a| Asked::Event(Revoke { caller: a[0], appointee: a[1], kind: a[2], appointer: a[3] }),
        &[4_095, 4_095, 127, 4_095],
    ),
    (
        |a| Asked::Event(Withdraw { appointee: a[0], kind: a[1], appointer: a[2] }),
        &[4_095, 127, 4_095],
    ),
    (|a| Asked::Event(Environment { fact: a[0], value: a[1] }), &[63, 1]),
    (|a| Asked::Event(Logout { user: a[0] }), &[4_095]),
    (|a| Asked::Event(Invoke { user: a[0], privilege: a[1] }), &[4_095, 1_023]),
    (|a| Asked::Event(Effective { user: a[0], role: a[1], privilege: a[2] }), &[4_095, 255, 1_023]),
    (|a| Asked::Chain { user: a[0], role: a[1], list: 256 }, &[4_095, 255]),
];

#[test]
fn each_argument_has_its_range() {
    let policy = (0..128).fold(world(), |w, _| w.kind(0, 0, &[]));
    for (asked, greatest) in ARGUMENTS {
        assert_ne!(policy.clone().ask(asked(greatest)).0, 3, "{greatest:?}");
        for place in 0..greatest.len() {
            for beyond in [greatest[place] + 1, 65_535] {
                let mut arguments = greatest.to_vec();
                arguments[place] = beyond;
                assert_eq!(policy.clone().ask(asked(&arguments)), (3, 0), "{arguments:?}");
                arguments.fill(0);
                arguments[place] = beyond;
                assert_eq!(policy.clone().ask(asked(&arguments)), (3, 0), "{arguments:?}");
            }
        }
    }
}
