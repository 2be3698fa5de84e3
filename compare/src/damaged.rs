//! Calls on damaged tables and states, on wrong lengths, and on noise.

use crate::case::*;
use crate::damage::{damage_state, damage_tables, wild};
use crate::moves::{self, Mood};
use crate::pair::{Failure, Outcome, Pair};
use crate::random::Random;
use crate::report::Counts;
use crate::sessions::{guard, session};
use crate::stops;
use crate::worlds::{world, Size, World};

/// What is damaged.
#[derive(Clone, Copy, Debug, PartialEq, Eq)]
pub enum Target {
    Tables,
    State,
}

/// So many sound cases, each damaged so many times in one place or two.
pub struct Plan {
    pub target: Target,
    pub size: Size,
    pub cases: u64,
    pub events: usize,
    pub times: usize,
}

pub fn run(plan: &Plan, seed: u64, part: u64, counts: &mut Counts) -> Outcome<()> {
    for number in 0..plan.cases {
        stops::go_on();
        let mut random = Random::of(seed, part, number);
        let world = world(&mut random, plan.size);
        let state = session(&mut random, &world, plan.events, Some(Mood::Build), counts)?;
        for _ in 0..plan.times {
            one(&mut random, &world, &state, plan.target, counts)?;
        }
    }
    Ok(())
}

fn one(
    random: &mut Random,
    world: &World,
    state: &[u16],
    target: Target,
    counts: &mut Counts,
) -> Outcome<()> {
    let mut case = Case {
        guard: guard(random),
        tables: world.tables.clone(),
        state: state.to_vec(),
        events: Vec::new(),
    };
    for _ in 0..random.between(1, 2) {
        // Now and then both are damaged: then the code is the tables'.
        if (target == Target::Tables) != random.once_in(12) {
            damage_tables(random, &mut case);
        } else {
            damage_state(random, &mut case);
        }
    }
    for _ in 0..random.between(1, 2) {
        let name = random.pick(&NAMES);
        let mood = random.pick(&[Mood::Build, Mood::Break]);
        case.events.push(moves::named_event(random, world, &case.state, mood, name));
    }
    counted(case, counts)
}

/// Runs the events of a case and counts the answers.
pub fn counted(case: Case, counts: &mut Counts) -> Outcome<()> {
    let mut pair = Pair::new(&case.tables, &case.state, case.guard);
    for event in &case.events {
        match pair.step(event) {
            Ok(answer) => counts.add(event.name, answer),
            Err(_) => return Err(Failure::of_calls(case)),
        }
    }
    Ok(())
}

/// Numbers of no sense: tables and states of right and wrong lengths.
pub fn run_noise(cases: u64, seed: u64, part: u64, counts: &mut Counts) -> Outcome<()> {
    stops::go_on();
    for number in 0..cases {
        let random = &mut Random::of(seed, part, number);
        let rules = noise(random, &[0, 0, 0, 11, 22, 33, 1, 10, 12, 5_632, 5_643]);
        let kinds = noise(random, &[0, 0, 0, 7, 14, 1, 6, 8, 896, 903]);
        let rights = noise(random, &[0, 0, 0, 2, 4, 1, 3, 4_096, 4_098]);
        let state = noise(random, &[STATE, STATE, STATE, STATE, 0, 1, 64, 65, 1_601, 1_603, 4_000]);
        let tables = Tables { rules, kinds, rights };
        let mut event = Event::new(random.pick(&NAMES), &[]);
        event.numbers = [(); 4].map(|()| wild(random, &tables));
        if event.name == Name::Chain {
            event.list = noise(random, &[LIST, LIST, LIST, 0, 255, 257]);
        }
        counted(Case { guard: guard(random), tables, state, events: vec![event] }, counts)?;
    }
    Ok(())
}

/// Zeros, or zeros with a few numbers among them, or small numbers, or any.
fn noise(random: &mut Random, lengths: &[usize]) -> Vec<u16> {
    let length = random.pick(lengths);
    let mut numbers = vec![0; length];
    match random.below(6) {
        0 | 1 => {}
        2 => numbers.iter_mut().for_each(|number| *number = random.number()),
        3 => numbers.iter_mut().for_each(|number| *number = random.below(3) as u16),
        _ => {
            for _ in 0..random.between(1, 4).min(length) {
                let at = random.below(length);
                numbers[at] = wild(random, &Tables::default());
            }
        }
    }
    numbers
}
