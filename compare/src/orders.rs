//! Lists of withdrawals: in whatever order they are run, the end is the same.

use crate::case::*;
use crate::moves::Mood;
use crate::pair::{Failure, Outcome, Pair};
use crate::random::Random;
use crate::report::Counts;
use crate::sessions::{guard, session};
use crate::stops;
use crate::worlds::{world, Size, World};

pub struct Plan {
    pub size: Size,
    pub states: u64,
    pub events: usize,
    /// How many lists are run on each state.
    pub lists: usize,
}

pub fn run(plan: &Plan, seed: u64, part: u64, counts: &mut Counts) -> Outcome<()> {
    for number in 0..plan.states {
        stops::go_on();
        let mut random = Random::of(seed, part, number);
        let world = world(&mut random, plan.size);
        let state = session(&mut random, &world, plan.events, Some(Mood::Build), counts)?;
        for _ in 0..plan.lists {
            let events = withdrawals(&mut random, &world, &state);
            let (guard, tables) = (guard(&mut random), world.tables.clone());
            let case = Case { guard, tables, state: state.clone(), events };
            if judge(&case, counts).is_some() {
                return Err(Box::new(Failure { name: "orders", test: differ, case }));
            }
        }
    }
    Ok(())
}

/// Two to eight facts set false, withdrawals and logouts; some twice, and some
/// that are refused.
fn withdrawals(random: &mut Random, world: &World, state: &[u16]) -> Vec<Event> {
    let mut list: Vec<Event> = Vec::new();
    for _ in 0..random.between(2, 8) {
        let event = match random.weighted(&[4, 5, 1, 1]) {
            0 => Event::new(Name::Environment, &[random.pick(&world.facts), 0]),
            1 if !certificates(state).is_empty() => {
                Event::new(Name::Withdraw, &random.pick(certificates(state)))
            }
            2 if !list.is_empty() => list[random.below(list.len())].clone(),
            3 => Event::new(Name::Logout, &[random.pick(&[4_096, world.users[0]])]),
            _ => Event::new(Name::Logout, &[random.pick(&world.users)]),
        };
        list.push(event);
    }
    list
}

/// What is wrong with the list, and at which of its events.
pub fn differ(case: &Case) -> Option<(usize, String)> {
    judge(case, &mut Counts::default())
}

fn judge(case: &Case, counts: &mut Counts) -> Option<(usize, String)> {
    all_orders(case, counts).err()
}

type Wrong = (usize, String);

/// The whole list, the same in other orders, and parts of it. The orders follow
/// from the list alone, so that a list given again fails again.
fn all_orders(case: &Case, counts: &mut Counts) -> Result<(), Wrong> {
    let length = case.events.len();
    let mut order: Vec<usize> = (0..length).collect();
    let whole = end(case, &order, counts)?;
    let mut random = Random::of(length as u64, 0, 0);
    for turn in 0..4 {
        match turn {
            0 => order.reverse(),
            _ => random.shuffle(&mut order),
        }
        let other = end(case, &order, counts)?;
        if other != whole {
            return Err((length, format!("in the order {order:?} the end or the total differs")));
        }
    }
    for _ in 0..3 {
        let part: Vec<usize> = order.iter().copied().filter(|_| random.once_in(2)).collect();
        let (state, lost) = end(case, &part, counts)?;
        if !keeps(&state, &whole.0) || lost > whole.1 {
            return Err((length, format!("the part {part:?} loses what the whole list keeps")));
        }
    }
    Ok(())
}

/// The end state and the total of the second numbers, through both sides.
fn end(case: &Case, order: &[usize], counts: &mut Counts) -> Result<(Vec<u16>, usize), Wrong> {
    let mut pair = Pair::new(&case.tables, &case.state, case.guard);
    let mut total = 0;
    for &at in order {
        let event = &case.events[at];
        let answer = pair.step(event).map_err(|what| (at, what))?;
        counts.add(event.name, answer);
        total += usize::from(answer.second);
    }
    Ok((pair.engine_state().to_vec(), total))
}

/// Each row and each certificate of the other state stands in this one.
fn keeps(state: &[u16], other: &[u16]) -> bool {
    let all = |rows: &[[u16; 3]], of: &[[u16; 3]]| of.iter().all(|row| rows.contains(row));
    all(active_rows(state), active_rows(other)) && all(certificates(state), certificates(other))
}
