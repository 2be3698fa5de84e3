//! Sessions of events on sound policies, and what they lead to.

use crate::case::*;
use crate::moves::{self, Mood};
use crate::pair::{Failure, Outcome, Pair};
use crate::random::Random;
use crate::report::Counts;
use crate::stops;
use crate::worlds::{world, Size, World};

/// The numbers that stand around what is lent, by turns: a call that reads
/// outside meets plausible numbers there, one that writes is seen at most.
const GUARDS: [u16; 4] = [0xA5C3, 0, 1, 65_535];

pub fn guard(random: &mut Random) -> u16 {
    random.pick(&GUARDS)
}

pub fn fresh_state() -> Vec<u16> {
    vec![0; STATE]
}

/// What a session was asked to be.
pub struct Plan {
    pub size: Size,
    pub sessions: u64,
    pub events: usize,
}

pub fn run(plan: &Plan, seed: u64, part: u64, counts: &mut Counts) -> Outcome<()> {
    for number in 0..plan.sessions {
        stops::go_on();
        let mut random = Random::of(seed, part, number);
        let world = world(&mut random, plan.size);
        session(&mut random, &world, plan.events, None, counts)?;
    }
    Ok(())
}

/// Runs a session from fresh and gives the state that it ends in. With no one
/// mood for all of it, the mood changes now and then.
pub fn session(
    random: &mut Random,
    world: &World,
    events: usize,
    mood: Option<Mood>,
    counts: &mut Counts,
) -> Outcome<Vec<u16>> {
    let guard = guard(random);
    let mut pair = Pair::new(&world.tables, &fresh_state(), guard);
    let mut so_far = Vec::with_capacity(events);
    let mut now = Mood::Build;
    for index in 0..events {
        now = mood.unwrap_or_else(|| next_mood(random, &pair.state, now, index, events));
        let event = moves::event(random, world, &pair.state, now);
        let answer = pair.step(&event);
        let name = event.name;
        so_far.push(event);
        let Ok(answer) = answer else {
            let (tables, state) = (world.tables.clone(), fresh_state());
            return Err(Failure::of_calls(Case { guard, tables, state, events: so_far }));
        };
        counts.add(name, answer);
    }
    Ok(pair.state)
}

/// A session builds until it is full or its first half is over; then the mood
/// changes now and then.
fn next_mood(random: &mut Random, state: &[u16], now: Mood, index: usize, events: usize) -> Mood {
    let full = active_rows(state).len() == MOST_ROWS && certificates(state).len() == MOST_ROWS;
    if (index < events / 2 && !full) || !random.once_in(events.div_ceil(12)) {
        return now;
    }
    random.pick(&[Mood::Build, Mood::Mixed, Mood::Mixed, Mood::Break, Mood::Ask])
}
