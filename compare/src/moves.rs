//! The next event of a session, chosen with an eye on the state.

use crate::aim::aim;
use crate::case::*;
use crate::random::Random;
use crate::worlds::{Size, World};

#[derive(Clone, Copy, Debug, PartialEq, Eq)]
pub enum Mood {
    Build,
    Mixed,
    Break,
    Ask,
}

/// How often each call is chosen, in the order of `NAMES`.
fn weights(mood: Mood) -> [usize; 10] {
    match mood {
        Mood::Build => [0, 50, 30, 0, 0, 12, 0, 2, 2, 2],
        Mood::Mixed => [1, 40, 25, 12, 8, 20, 4, 10, 12, 10],
        Mood::Break => [1, 8, 5, 20, 14, 24, 8, 8, 8, 6],
        Mood::Ask => [0, 4, 4, 4, 2, 2, 1, 25, 35, 25],
    }
}

pub fn event(random: &mut Random, world: &World, state: &[u16], mood: Mood) -> Event {
    if mood == Mood::Build && !random.once_in(3) {
        if active_rows(state).len() == MOST_ROWS && !random.once_in(8) {
            return named_event(random, world, state, mood, Name::Appoint);
        }
        if let Some(event) = next_step(random, world, state) {
            return event;
        }
    }
    let mut name = NAMES[random.weighted(&weights(mood))];
    if empties_much(world, name) && !random.once_in(10) {
        name = random.pick(&[Name::Activate, Name::Effective, Name::Chain]);
    }
    named_event(random, world, state, mood, name)
}

/// What takes long to build up is emptied seldom.
fn empties_much(world: &World, name: Name) -> bool {
    let large = matches!(world.size, Size::Full | Size::Ladder);
    large && (name == Name::Fresh || name == Name::Logout && world.users.len() == 1)
}

/// A step towards a role that somebody has not: on a ladder the next one up.
fn next_step(random: &mut Random, world: &World, state: &[u16]) -> Option<Event> {
    let user = random.pick(&world.users);
    let held: Vec<u16> =
        active_rows(state).iter().filter(|row| row[0] == user).map(|row| row[1]).collect();
    let mut wanted = world.roles.iter().copied().filter(|role| !held.contains(role));
    let role = match world.size {
        Size::Ladder => wanted.next()?,
        _ => wanted.nth(random.below(world.roles.len() - held.len().min(world.roles.len())))?,
    };
    aim(random, world, state, user, role, 6)
}

pub fn named_event(
    random: &mut Random,
    world: &World,
    state: &[u16],
    mood: Mood,
    name: Name,
) -> Event {
    let numbers = match name {
        Name::Fresh => vec![],
        Name::Activate => vec![user(random, world), role(random, world)],
        Name::Appoint => appointment(random, world, state),
        Name::Revoke => revocation(random, world, state),
        Name::Withdraw => certificate(random, world, state).to_vec(),
        Name::Environment => vec![fact(random, world), value(random, mood)],
        Name::Logout => vec![user(random, world)],
        Name::Invoke => vec![user(random, world), privilege(random, world)],
        Name::Effective => [held(random, world, state), vec![privilege(random, world)]].concat(),
        Name::Chain => held(random, world, state),
    };
    let mut event = Event::new(name, &numbers);
    if name == Name::Chain {
        event.list = list(random);
    }
    for number in &mut event.numbers[..name.count()] {
        if random.once_in(250) {
            *number = random.number();
        }
    }
    event
}

const ODD: usize = 30;

fn user(random: &mut Random, world: &World) -> u16 {
    if random.once_in(ODD) {
        return random.pick(&[0, 1, 4_094, 4_095, 4_096, 4_097, 65_535]);
    }
    random.pick(&world.users)
}

fn role(random: &mut Random, world: &World) -> u16 {
    if random.once_in(ODD) {
        return random.pick(&[0, 1, 254, 255, 256, 257, 65_535]);
    }
    random.pick(&world.roles)
}

fn privilege(random: &mut Random, world: &World) -> u16 {
    if random.once_in(ODD) {
        return random.pick(&[0, 1, 1_022, 1_023, 1_024, 1_025, 65_535]);
    }
    random.pick(&world.privileges)
}

fn fact(random: &mut Random, world: &World) -> u16 {
    if random.once_in(ODD) {
        return random.pick(&[0, 1, 62, 63, 64, 65, 65_535]);
    }
    random.pick(&world.facts)
}

fn value(random: &mut Random, mood: Mood) -> u16 {
    if random.once_in(ODD) {
        return random.pick(&[2, 3, 255, 256, 65_535]);
    }
    let ones = if mood == Mood::Build { 20 } else { 2 };
    u16::from(!random.once_in(ones))
}

fn kind(random: &mut Random, world: &World) -> u16 {
    let count = world.tables.kind_count() as u16;
    if count == 0 || random.once_in(ODD) {
        return random.pick(&[
            0,
            1,
            count.wrapping_sub(1),
            count,
            count + 1,
            127,
            128,
            256,
            65_535,
        ]);
    }
    random.below(count.into()) as u16
}

/// A chain's list with noise in it, now and then of a wrong length.
fn list(random: &mut Random) -> Vec<u16> {
    let length = if random.once_in(12) { random.pick(&[0, 1, 255, 257, 512]) } else { LIST };
    let (first, step) = (random.number(), random.number() | 1);
    (0..length as u16).map(|index| first.wrapping_add(index.wrapping_mul(step))).collect()
}

/// A user who is active in the role, if there is one.
pub fn holder(random: &mut Random, state: &[u16], role: u16) -> Option<u16> {
    let holders = active_rows(state).iter().filter(|row| row[1] == role);
    let holders: Vec<u16> = holders.map(|row| row[0]).collect();
    (!holders.is_empty()).then(|| random.pick(&holders))
}

fn appointment(random: &mut Random, world: &World, state: &[u16]) -> Vec<u16> {
    let mut kind = kind(random, world);
    let mut appointer = user(random, world);
    for _ in 0..3 {
        let row = world.tables.kinds.chunks_exact(KIND).nth(kind.into());
        let known = row.and_then(|row| holder(random, state, row[0]));
        if let Some(known) = known.filter(|_| !random.once_in(10)) {
            appointer = known;
            break;
        }
        kind = self::kind(random, world);
    }
    vec![appointer, user(random, world), kind]
}

/// A certificate, mostly one that stands: appointee, kind, appointer.
fn certificate(random: &mut Random, world: &World, state: &[u16]) -> [u16; 3] {
    let standing = certificates(state);
    if standing.is_empty() || random.once_in(6) {
        return [user(random, world), kind(random, world), user(random, world)];
    }
    let mut row = random.pick(standing);
    if random.once_in(10) {
        row[random.below(3)] = user(random, world);
    }
    row
}

fn revocation(random: &mut Random, world: &World, state: &[u16]) -> Vec<u16> {
    let [appointee, kind, appointer] = certificate(random, world, state);
    let row = world.tables.kinds.chunks_exact(KIND).nth(kind.into());
    let caller = match random.below(4) {
        0 => user(random, world),
        1 => row.and_then(|row| holder(random, state, row[0])).unwrap_or(appointer),
        _ => appointer,
    };
    vec![caller, appointee, kind, appointer]
}

/// A user and a role, mostly one in which the user is active.
fn held(random: &mut Random, world: &World, state: &[u16]) -> Vec<u16> {
    let rows = active_rows(state);
    if rows.is_empty() || random.once_in(8) {
        return vec![user(random, world), role(random, world)];
    }
    // Late rows rest on more, and the last may rest on all.
    let last = rows.len() - 1;
    let from = random.pick(&[0, 0, 0, last / 2, last / 2, last]);
    let [user, role, _] = rows[random.between(from, last)];
    vec![user, role]
}
