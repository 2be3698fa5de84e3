//! Which calls are measured, on which tables.

use crate::call::Call::{self, *};
use crate::case::{Again, Case};
use crate::scene::{Scene, Size, FULL, LAST_PRIVILEGE, LATE_USER, MIDDLE, NO_PRIVILEGE, ROW_COUNT};

fn case(name: &str, tables: &str, scene: &Scene, calls: &[(Call, u16, u16)]) -> Case {
    Case { name: name.into(), tables: tables.into(), scene: scene.clone(), calls: calls.to_vec(), again: Again::AsItWas }
}

fn on_empty(scene: &Scene) -> Vec<Case> {
    let case = |name: &str, calls: &[(Call, u16, u16)]| case(name, "empty", scene, calls);
    vec![
        case("fresh", &[(Fresh, 0, 0)]),
        case("activate, then logout", &[(Activate(41, 1), 0, 1), (Logout(41), 0, 1)]),
        case("appoint, refused 7", &[(Appoint(7, 41, 0), 7, 0)]),
        case("revoke, refused 9", &[(Revoke(7, 41, 0, 7), 9, 0)]),
        case("withdraw, refused 9", &[(Withdraw(41, 0, 7), 9, 0)]),
        case("environment, fells 0", &[(Environment(1, 0), 0, 0)]),
        case("invoke, none", &[(Invoke(41, 30), 0, 0)]),
        case("effective, refused 12", &[(Effective(41, 3, 30), 12, 0)]),
        case("chain, refused 12", &[(Chain(41, 3), 12, 0)]),
    ]
}

fn on_workshop(scene: &Scene, size: &Size, tables: &str, falling: u16) -> Vec<Case> {
    let (user, role) = size.deep_user();
    let (manager, kind) = (size.manager(), size.kinds - 1);
    let late_rule = 2 * manager + 1;
    let appoint = (Appoint(LATE_USER, LATE_USER, kind), 0, 0);
    let mut malformed = scene.clone();
    *malformed.rights.last_mut().expect("there are rights") = 1024;
    let mut unsound = scene.clone();
    unsound.state[ROW_COUNT + 3 * scene.state[ROW_COUNT] as usize] = 0;
    let on = |scene: &Scene, name: &str, calls: &[(Call, u16, u16)]| case(name, tables, scene, calls);
    let case = |name: &str, calls: &[(Call, u16, u16)]| on(scene, name, calls);
    let falls = case(&format!("environment, fells {falling}"), &[(Environment(0, 0), 0, falling)]);
    vec![
        case("logout, then activate", &[(Logout(LATE_USER), 0, 1), (Activate(LATE_USER, manager), 0, late_rule)]),
        case("withdraw, then appoint", &[(Withdraw(LATE_USER, kind, LATE_USER), 0, 0), appoint]),
        case("revoke, then appoint", &[(Revoke(LATE_USER, LATE_USER, kind, LATE_USER), 0, 0), appoint]),
        case("environment, fells 0", &[(Environment(40, 0), 0, 0)]),
        case("environment, 0 and 1, fells 0", &[(Environment(2, 0), 0, 0), (Environment(2, 1), 0, 0)]),
        Case { again: Again::Copied, ..falls },
        case("invoke, by the last right", &[(Invoke(user, LAST_PRIVILEGE), 0, 1)]),
        case("invoke, none", &[(Invoke(user, NO_PRIVILEGE), 0, 0)]),
        case("effective, by the last right", &[(Effective(user, role, LAST_PRIVILEGE), 0, 1)]),
        case("effective, none", &[(Effective(user, role, NO_PRIVILEGE), 0, 0)]),
        case("chain", &[(Chain(user, role), 0, size.depth)]),
        on(&malformed, "invoke, refused 1 for the last right", &[(Invoke(user, NO_PRIVILEGE), 1, 0)]),
        on(&unsound, "invoke, refused 2 for the last row", &[(Invoke(user, NO_PRIVILEGE), 2, 0)]),
        case("invoke, refused 3", &[(Invoke(4096, 0), 3, 0)]),
        case("activate, refused 5", &[(Activate(LATE_USER, 1), 5, 0)]),
    ]
}

/// The right that stands last in full tables is another's; so one user in all 256 roles asks for a privilege that none has.
fn on_diamonds(full: &Scene) -> Result<Vec<Case>, String> {
    let diamond = Scene::diamond(&[])?;
    let with_rights = Scene::diamond(&full.rights)?;
    let kinds = Scene::diamond_through_kinds()?;
    Ok(vec![
        case("effective, none", "diamond", &diamond, &[(Effective(0, 255, NO_PRIVILEGE), 0, 0)]),
        case("effective, none", "diamond, kinds", &kinds, &[(Effective(0, 254, NO_PRIVILEGE), 0, 0)]),
        case("effective, none", "diamond, full rights", &with_rights, &[(Effective(0, 255, NO_PRIVILEGE), 0, 0)]),
        case("invoke, none", "diamond, full rights", &with_rights, &[(Invoke(0, NO_PRIVILEGE), 0, 0)]),
        case("chain", "diamond", &diamond, &[(Chain(0, 255), 0, 256)]),
    ])
}

/// Fact 0 goes, on which all rest but the appointers: of each 32 rows 31 fall.
fn on_growing(full: &Scene) -> Vec<Case> {
    let (user, _) = FULL.deep_user();
    let sizes = [0, 32, 64, 128, 192, 256];
    let on = |name: &str, rows, call, second| case(name, &format!("{rows} rows"), &full.cut(rows), &[(call, 0, second)]);
    let invoke = sizes.map(|rows| on("invoke, none", rows, Invoke(user, NO_PRIVILEGE), 0));
    let idle = sizes.map(|rows| on("environment, fells 0", rows, Environment(40, 0), 0));
    let falls = sizes.map(|rows| {
        let falling = rows as u16 / 32 * 31;
        Case { again: Again::Copied, ..on(&format!("environment, fells {falling}"), rows, Environment(0, 0), falling) }
    });
    [invoke, idle, falls].into_iter().flatten().collect()
}

/// The certificate of the appointee that leaves the sum at a multiple of 16,384, of the lowest kind for which there is an appointer. By
/// that remainder an earlier state told certificates apart, and looked through all of them wherever it had met one before.
fn meeting(appointee: u16) -> Option<[u16; 3]> {
    const INVERSE_OF_61: u32 = 5909;
    (0..FULL.kinds).find_map(|kind| {
        let sum = (u32::from(appointee) * 129 + u32::from(kind)) % 16384;
        let appointer = (16384 - sum) * INVERSE_OF_61 % 16384;
        (appointer < 4096).then_some([appointee, kind, appointer as u16])
    })
}

/// Certificates that may mislead what tells them apart, beside those of the full tables: what differs between these lines is the
/// certificates alone.
fn on_certificates() -> Result<Vec<Case>, String> {
    let (user, _) = FULL.deep_user();
    let scene = Scene::on_roles()?;
    let meet: Vec<[u16; 3]> = (0..256).filter_map(|i| meeting(16 * i)).collect();
    let of_one: Vec<[u16; 3]> = (0..FULL.kinds).flat_map(|kind| [[user, kind, 0], [user, kind, LATE_USER]]).collect();
    let on = |tables: &str, scene: &Scene| case("invoke, none", tables, scene, &[(Invoke(user, NO_PRIVILEGE), 0, 0)]);
    Ok(vec![
        on("full, on roles", &scene),
        on("full, certificates meet", &scene.clone().with_certificates(&meet)),
        on("full, one appointee", &scene.clone().with_certificates(&of_one)),
    ])
}

/// The calls that are measured with and without judging.
fn on_each_sort(full: &Scene) -> Result<Vec<Case>, String> {
    let mut cases = on_empty(&Scene::empty()?);
    cases.extend(on_workshop(&Scene::workshop(&MIDDLE)?, &MIDDLE, "middle", 71));
    cases.extend(on_workshop(full, &FULL, "full", 248));
    cases.extend(on_diamonds(full)?);
    Ok(cases)
}

/// Every case of the sides that judge, in the order of the table.
pub fn judged() -> Result<Vec<Case>, String> {
    let full = Scene::workshop(&FULL)?;
    Ok(on_each_sort(&full)?.into_iter().chain(on_certificates()?).chain(on_growing(&full)).collect())
}

/// Every case of the sides that do not.
pub fn unjudged() -> Result<Vec<Case>, String> {
    Ok(on_each_sort(&Scene::workshop(&FULL)?)?.into_iter().filter(Case::is_on_sound_tables).collect())
}

#[cfg(test)]
mod tests {
    use super::*;
    use crate::case::Measured;

    #[test]
    fn every_case_is_answered_alike() {
        judged().unwrap().into_iter().for_each(|case| drop(Measured::judged(case).unwrap()));
        unjudged().unwrap().into_iter().for_each(|case| drop(Measured::unjudged(case).unwrap()));
    }

    #[test]
    fn unsound_tables_are_not_for_calls_that_do_not_judge() {
        let refused = judged().unwrap().into_iter().filter(|case| !case.is_on_sound_tables());
        let errors: Vec<_> = refused.map(|case| Measured::unjudged(case).err()).collect();
        assert!(errors.len() == 4 && errors.iter().all(Option::is_some), "{errors:?}");
    }

    #[test]
    fn certificates_meet() {
        let certificates: Vec<_> = (0..256).filter_map(|i| meeting(16 * i)).collect();
        assert_eq!(certificates.len(), 256);
        for [appointee, kind, appointer] in certificates {
            let sum = u32::from(appointee) * 129 + u32::from(kind) + u32::from(appointer) * 61;
            assert!(appointer < 4096 && sum % 16384 == 0, "{appointee}, {kind}, {appointer}");
        }
    }
}
