//! The program and the second implementation, on sessions: what an event costs, and a whole session.

use crate::call::Call::{self, *};
use crate::process::{room, Input, Programs, NAMES};
use crate::scene::{Scene, Size, FULL, LATE_USER, MIDDLE, NO_PRIVILEGE};
use crate::table::Line;

/// In a pass each program runs the texts of a session in turns for about so long, in microseconds, and at least so often. Ours needs the
/// longer time, since an event takes a few hundredths of a microsecond, and starting a process hundreds of them.
const PASS: [f64; NAMES.len()] = [500_000.0, 100_000.0, 100_000.0];
const RUNS: usize = 3;

/// A session whose cost is measured beside that of the session without what is measured, and shared out over so many times.
pub struct Session {
    what: String,
    tables: &'static str,
    with: Input,
    without: Input,
    times: usize,
}

impl Session {
    /// The cost of calls as events. Each call has its answer.
    fn of_events(scene: &Scene, tables: &'static str, name: &str, calls: &[(Call, u16, u16)]) -> Session {
        let times = room(scene, calls);
        let [with, without] = [times, 0].map(|times| Input::of_events(scene, calls, times));
        Session { what: format!("event: {name}"), tables, with, without, times }
    }

    /// A whole session, against an empty one.
    fn whole(scene: &Scene, tables: &'static str, calls: &[(Call, u16, u16)]) -> Session {
        let with = Input::of_events(scene, calls, room(scene, calls));
        let what = format!("program: a session of {} bytes", with.text.len());
        Session { what, tables, with, without: Input::new(String::new(), String::new()), times: 1 }
    }

    fn turn(&mut self, programs: Programs, side: usize) -> Result<(), String> {
        let wrong = format!("{}, {}", self.what, self.tables);
        let mut inputs = [&mut self.with, &mut self.without].into_iter();
        inputs.try_for_each(|input| input.run(programs, side)).map_err(|why| format!("{wrong}: {why}"))
    }

    /// Each program runs both texts once, so that nothing is measured that is not answered as it should be.
    pub fn agree(&mut self, programs: Programs) -> Result<(), String> {
        (0..programs.len()).try_for_each(|side| self.turn(programs, side))
    }

    /// The texts take turns, with one program after the other.
    pub fn pass(&mut self, programs: Programs) -> Result<(), String> {
        for side in 0..programs.len() {
            let turn = self.with.time(side) + self.without.time(side);
            for _ in 0..RUNS.max((PASS[side] / turn) as usize) {
                self.turn(programs, side)?;
            }
        }
        Ok(())
    }

    /// What each program takes for the calls once, in microseconds.
    pub fn line(&self, programs: Programs) -> Line {
        let share = |side| (self.with.time(side) - self.without.time(side)) / self.times as f64;
        Line { what: self.what.clone(), tables: self.tables.into(), times: (0..programs.len()).map(share).collect() }
    }
}

/// The calls that are measured as events on a workshop.
fn on_workshop(scene: &Scene, size: &Size, tables: &'static str) -> (Vec<(Call, u16, u16)>, Vec<Session>) {
    let (user, role) = size.deep_user();
    let (manager, kind) = (size.manager(), size.kinds - 1);
    let moves = [(Logout(LATE_USER), 0, 1), (Activate(LATE_USER, manager), 0, 2 * manager + 1)];
    let appoint = (Appoint(LATE_USER, LATE_USER, kind), 0, 0);
    let papers = [(Withdraw(LATE_USER, kind, LATE_USER), 0, 0), appoint];
    let revoked = [(Revoke(LATE_USER, LATE_USER, kind, LATE_USER), 0, 0), appoint];
    let idle = [(Environment(40, 0), 0, 0)];
    let back = [(Environment(40, 1), 0, 0), (Environment(40, 0), 0, 0)];
    let invoke = [(Invoke(user, NO_PRIVILEGE), 0, 0)];
    let effective = [(Effective(user, role, NO_PRIVILEGE), 0, 0)];
    let sessions = vec![
        Session::of_events(scene, tables, "logout, then activate", &moves),
        Session::of_events(scene, tables, "withdraw, then appoint", &papers),
        Session::of_events(scene, tables, "revoke, then appoint", &revoked),
        Session::of_events(scene, tables, "environment, fells 0", &idle),
        Session::of_events(scene, tables, "environment, 1 and 0, fells 0", &back),
        Session::of_events(scene, tables, "invoke, none", &invoke),
        Session::of_events(scene, tables, "effective, none", &effective),
    ];
    ([&moves[..], &papers, &idle, &invoke, &effective].concat(), sessions)
}

/// Nobody is active: what is refused, and what changes nothing.
fn on_empty() -> Result<Vec<Session>, String> {
    let empty = Scene::empty()?;
    let on = |name: &str, calls: &[(Call, u16, u16)]| Session::of_events(&empty, "empty", name, calls);
    Ok(vec![
        on("activate, then logout", &[(Activate(LATE_USER, 1), 0, 1), (Logout(LATE_USER), 0, 1)]),
        on("appoint, refused 7", &[(Appoint(LATE_USER, 41, 0), 7, 0)]),
        on("revoke, refused 9", &[(Revoke(LATE_USER, 41, 0, LATE_USER), 9, 0)]),
        on("withdraw, refused 9", &[(Withdraw(LATE_USER, 0, LATE_USER), 9, 0)]),
        on("environment, fells 0", &[(Environment(40, 0), 0, 0)]),
        on("invoke, none", &[(Invoke(41, NO_PRIVILEGE), 0, 0)]),
        on("effective, refused 12", &[(Effective(41, 3, NO_PRIVILEGE), 12, 0)]),
    ])
}

/// Every session, in the order of the table.
pub fn all() -> Result<Vec<Session>, String> {
    let full = Scene::workshop(&FULL)?;
    let (mixed, on_full) = on_workshop(&full, &FULL, "full");
    let (_, on_middle) = on_workshop(&Scene::workshop(&MIDDLE)?, &MIDDLE, "middle");
    let diamond = |role| [(Effective(0, role, NO_PRIVILEGE), 0, 0)];
    let mut sessions = vec![Session::whole(&full, "full", &mixed)];
    sessions.extend(on_empty()?.into_iter().chain(on_middle).chain(on_full));
    sessions.push(Session::of_events(&Scene::diamond(&[])?, "diamond", "effective, none", &diamond(255)));
    sessions.push(Session::of_events(&Scene::diamond_through_kinds()?, "diamond, kinds", "effective, none", &diamond(254)));
    Ok(sessions)
}
