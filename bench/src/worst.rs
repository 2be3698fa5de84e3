//! The texts that keep the program busiest, of each word of its vocabulary: after a policy and a state that make a call as long as may
//! be, as many of these calls as there is room for.

use crate::call::Call::{self, *};
use crate::process::{room, Input, Programs};
use crate::scene::Scene;
use crate::table::Line;

/// A text, and how many events it ends in.
pub struct Busy {
    what: &'static str,
    events: usize,
    input: Input,
}

impl Busy {
    /// The calls again and again on a state, each with its answer.
    fn new(what: &'static str, scene: &Scene, calls: &[(Call, u16, u16)]) -> Busy {
        let times = room(scene, calls);
        Busy { what, events: times * calls.len(), input: Input::of_events(scene, calls, times) }
    }

    /// One run of each program; the best run of all passes counts.
    pub fn pass(&mut self, programs: Programs) -> Result<(), String> {
        (0..programs.len()).try_for_each(|side| self.input.run(programs, side)).map_err(|why| format!("{}: {why}", self.what))
    }

    /// What each program takes, in milliseconds.
    pub fn line(&self, programs: Programs) -> Line {
        let times = (0..programs.len()).map(|side| self.input.time(side) / 1e3).collect();
        let tables = format!("{} events, {} bytes", self.events, self.input.text.len());
        Line { what: self.what.into(), tables, times }
    }
}

/// User 0 becomes active in these roles.
fn activations(roles: std::ops::Range<u16>) -> impl Iterator<Item = Call> {
    roles.map(|role| Activate(0, role))
}

/// 256 rows, each on the eight roles before its own.
fn on_eight_roles() -> Result<Scene, String> {
    let mut scene = Scene::default();
    scene.rule(0, 0, &[]);
    (1..256).for_each(|role| scene.rule(role, 8, &[1, 2, 3, 4, 5, 6, 7, 8].map(|back: u16| u16::saturating_sub(role, back))));
    scene.story.extend(activations(0..256));
    scene.told()
}

/// 256 rows, each on eight kinds, of which each wants four roles before the row's own.
fn on_eight_kinds_of_four() -> Result<Scene, String> {
    let mut scene = Scene::default();
    let before = |number: u16, back: u16| number.saturating_sub(back);
    (0..128).for_each(|kind| scene.kind(0, 0, &[0, 1, 2, 3].map(|back| before(2 * kind, back))));
    scene.rule(0, 0, &[]);
    (1..256).for_each(|role| scene.rule(role, 8, &[0, 1, 2, 3, 4, 5, 6, 7].map(|back| 256 + before((role - 1) / 2, back))));
    scene.story.extend(activations(0..1));
    scene.story.extend((0..128).map(|kind| Appoint(0, 0, kind)));
    scene.story.extend(activations(1..256));
    scene.told()
}

/// 256 rows, each on the row before it and seven times on the condition given. The kind asks for the first role four times.
fn on_the_first_row(condition: u16) -> Result<Scene, String> {
    let mut scene = Scene::default();
    scene.rule(0, 0, &[]);
    (1..256).for_each(|role| scene.rule(role, 8, &[&[role - 1][..], &[condition; 7]].concat()));
    scene.story.extend(activations(0..1));
    if condition == 256 {
        scene.kind(0, 0, &[0; 4]);
        scene.story.push(Appoint(0, 0, 0));
    }
    scene.story.extend(activations(1..256));
    scene.told()
}

/// 256 rows of eight users, 31 of each on eight times a kind that asks four times for the user's first role. So the rules are few, and
/// leave room for more events.
fn of_eight_users() -> Result<Scene, String> {
    let mut scene = Scene::default();
    scene.rule(0, 0, &[]);
    (1..32).for_each(|role| scene.rule(role, 8, &[256; 8]));
    scene.kind(0, 0, &[0; 4]);
    scene.story.extend((0..8).map(|user| Activate(user, 0)));
    scene.story.extend((0..8).map(|user| Appoint(0, user, 0)));
    scene.story.extend((0..8).flat_map(|user| (1..32).map(move |role| Activate(user, role))));
    scene.told()
}

/// 256 users in one role each.
fn one_row_each() -> Result<Scene, String> {
    let mut scene = Scene::default();
    scene.rule(0, 0, &[]);
    scene.story.extend((0..256).map(|user| Activate(user, 0)));
    scene.told()
}

/// 256 rows, of which the appointer's is the last, and 256 certificates.
fn all_taken() -> Result<Scene, String> {
    let mut scene = Scene::default();
    (0..2).for_each(|role| scene.rule(role, 0, &[]));
    (0..2).for_each(|_| scene.kind(1, 0, &[]));
    scene.story.extend((1..256).map(|user| Activate(user, 0)));
    scene.story.push(Activate(0, 1));
    scene.story.extend((0..256).map(|user| Appoint(0, user, 0)));
    scene.told()
}

/// 512 rules for role 0, each on seven facts that are 1 and one that is not.
fn rules_on_facts() -> Result<Scene, String> {
    let mut scene = Scene::default();
    (0..512).for_each(|_| scene.rule(0, 0, &[384, 385, 386, 387, 388, 389, 390, 447]));
    scene.story.extend((0..7).map(|fact| Environment(fact, 1)));
    scene.told()
}

/// 255 rows, and 257 rules for the role that is left, each on the roles of the last seven rows and a fact that is not 1.
fn rules_on_roles() -> Result<Scene, String> {
    let mut scene = Scene::default();
    (1..256).for_each(|role| scene.rule(role, 0, &[]));
    (0..257).for_each(|_| scene.rule(0, 0, &[255, 254, 253, 252, 251, 250, 249, 447]));
    scene.story.extend(activations(1..256));
    scene.told()
}

/// 511 rules for role 0, each seven times on a kind with four prerequisite roles, and on one that misses the last of its four.
fn rules_on_kinds() -> Result<Scene, String> {
    let mut scene = Scene::default();
    scene.rule(1, 0, &[]);
    (0..511).for_each(|_| scene.rule(0, 0, &[256, 256, 256, 256, 256, 256, 256, 257]));
    scene.kind(1, 0, &[1; 4]);
    scene.kind(1, 0, &[1, 1, 1, 0]);
    scene.story.extend([Activate(0, 1), Appoint(0, 0, 0), Appoint(0, 0, 1)]);
    scene.told()
}

/// User 0 in every role but 0, and 2,048 rights of role 0 to privilege 0.
fn many_rights() -> Result<Scene, String> {
    let mut scene = Scene { rights: vec![0; 2 * 2048], ..Scene::default() };
    (0..256).for_each(|role| scene.rule(role, 0, &[]));
    scene.story.extend(activations(1..256));
    scene.told()
}

/// A policy with all the rules and kinds that there may be and rights as there is room for, every field of it quoted, and one event.
fn quoted_policy() -> Busy {
    let mut scene = Scene { rights: [255, 1023].repeat(1190), ..Scene::default() };
    (0..512).for_each(|_| scene.rule(255, 8, &[383; 8]));
    (0..128).for_each(|_| scene.kind(255, 2, &[255; 4]));
    let quoted = |record: &str| record.split(',').map(|field| format!("\"{field}\"")).collect::<Vec<_>>().join(",") + "\r\n";
    let policy: String = scene.records().lines().map(quoted).collect();
    let input = Input::new(policy + "logout,0\r\n", "0,0\r\n".into());
    Busy { what: "reading: a policy, every field quoted", events: 1, input }
}

/// As many records as there may be, of which the last is bad.
fn bad_at_the_end() -> Busy {
    let events = 6552;
    let [text, wanted] = [("logout,0\r\n", "x\r\n"), ("0,0\r\n", "bad,6553\r\n")].map(|(each, last)| each.repeat(events) + last);
    Busy { what: "reading: bad at the end", events, input: Input::new(text, wanted) }
}

/// The calls that are long on rows that rest on many others.
fn on_rows() -> Result<Vec<Busy>, String> {
    let [by_kind, directly] = [on_the_first_row(256)?, on_the_first_row(0)?];
    let [roles, kinds, users] = [on_eight_roles()?, on_eight_kinds_of_four()?, of_eight_users()?];
    let facts = [(Environment(0, 0), 0, 0), (Environment(0, 1), 0, 0)];
    let effective = [(Effective(0, 255, 1), 0, 0)];
    let appoint = (Appoint(0, 9, 0), 0, 0);
    Ok(vec![
        Busy::new("effective: rows on the first, by a kind", &by_kind, &effective),
        Busy::new("effective: rows on the first, directly", &directly, &effective),
        Busy::new("effective: rows on eight kinds of four", &kinds, &effective),
        Busy::new("env: 256 rows on eight roles", &roles, &facts),
        Busy::new("env: 256 rows on eight kinds of four", &kinds, &facts),
        Busy::new("env: rows of eight users on kinds of four", &users, &facts),
        Busy::new("appoint, withdraw: the same rows", &users, &[appoint, (Withdraw(9, 0, 0), 0, 0)]),
        Busy::new("appoint, revoke: the same rows", &users, &[appoint, (Revoke(0, 9, 0, 0), 0, 0)]),
    ])
}

/// The calls that are long on tables with many rows of any sort.
fn on_tables() -> Result<Vec<Busy>, String> {
    let unsatisfied = [(Activate(0, 0), 5, 0)];
    let leave: Vec<_> = (0..256).flat_map(|user| [(Logout(user), 0, 1), (Activate(user, 0), 0, 0)]).collect();
    Ok(vec![
        Busy::new("activate, refused: 512 rules on facts", &rules_on_facts()?, &unsatisfied),
        Busy::new("activate, refused: 257 rules on roles", &rules_on_roles()?, &unsatisfied),
        Busy::new("activate, refused: 511 rules on kinds", &rules_on_kinds()?, &unsatisfied),
        Busy::new("logout, activate: the first of 256 rows", &one_row_each()?, &leave),
        Busy::new("appoint, refused: 256 certificates", &all_taken()?, &[(Appoint(0, 0, 1), 6, 0)]),
        Busy::new("invoke, none: 2,048 rights", &many_rights()?, &[(Invoke(0, 0), 0, 0)]),
    ])
}

/// Every text, in the order of the table.
pub fn all() -> Result<Vec<Busy>, String> {
    Ok(on_rows()?.into_iter().chain(on_tables()?).chain([quoted_policy(), bad_at_the_end()]).collect())
}
