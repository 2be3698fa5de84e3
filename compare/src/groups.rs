//! The groups of calls, and how much of each is run.

use crate::damaged::{self, Target};
use crate::pair::{Failure, Outcome};
use crate::report::Counts;
use crate::worlds::Size;
use crate::{orders, sessions};

type Run = Box<dyn Fn(u64, u64, &mut Counts) -> Outcome<()>>;

pub struct Group {
    pub name: &'static str,
    pub run: Run,
}

/// All groups; of each only one part in so many is run.
pub fn groups(share: u64) -> Vec<Group> {
    use Size::*;
    use Target::*;
    let of = |whole: u64| whole.div_ceil(share);
    vec![
        of_sessions("sessions on small policies", Small, of(30_000), 60),
        of_sessions("sessions on middle policies", Middle, of(1_200), 400),
        of_sessions("sessions on full policies", Full, of(80), 1_600),
        of_sessions("sessions on ladders of 256 roles", Ladder, of(50), 2_000),
        of_damage("damaged tables", Tables, Small, of(4_000), 60),
        of_damage("damaged tables of middle size", Tables, Middle, of(150), 200),
        of_damage("damaged full tables", Tables, Full, of(10), 700),
        of_damage("damaged states", State, Small, of(4_000), 60),
        of_damage("damaged states of middle size", State, Middle, of(150), 200),
        of_damage("damaged full states", State, Full, of(10), 700),
        of_noise("wrong lengths and noise", of(200_000)),
        of_orders("withdrawal lists in several orders", Small, of(2_000), 40, 5),
        of_orders("withdrawal lists on middle states", Middle, of(200), 250, 5),
        of_orders("withdrawal lists on full states", Full, of(10), 1_000, 8),
        of_orders("withdrawal lists on ladders", Ladder, of(15), 800, 8),
    ]
}

/// Runs such a part of each group until one fails: the group's name and the case.
pub fn first_failure(
    seed: u64,
    share: u64,
    counts: &mut Counts,
) -> Option<(&'static str, Box<Failure>)> {
    (1..).zip(groups(share)).find_map(|(part, group)| {
        let failure = (group.run)(seed, part, counts).err()?;
        Some((group.name, failure))
    })
}

fn of_noise(name: &'static str, cases: u64) -> Group {
    let run = move |seed, part, counts: &mut Counts| damaged::run_noise(cases, seed, part, counts);
    Group { name, run: Box::new(run) }
}

fn of_sessions(name: &'static str, size: Size, sessions: u64, events: usize) -> Group {
    let plan = sessions::Plan { size, sessions, events };
    Group {
        name,
        run: Box::new(move |seed, part, counts| sessions::run(&plan, seed, part, counts)),
    }
}

fn of_damage(name: &'static str, target: Target, size: Size, cases: u64, times: usize) -> Group {
    let events = match size {
        Size::Small => 40,
        Size::Middle => 200,
        Size::Full | Size::Ladder => 1_000,
    };
    let plan = damaged::Plan { target, size, cases, events, times };
    Group { name, run: Box::new(move |seed, part, counts| damaged::run(&plan, seed, part, counts)) }
}

fn of_orders(name: &'static str, size: Size, states: u64, events: usize, lists: usize) -> Group {
    let plan = orders::Plan { size, states, events, lists };
    Group { name, run: Box::new(move |seed, part, counts| orders::run(&plan, seed, part, counts)) }
}
