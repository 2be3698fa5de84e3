//! Sound policies: small, middle and full, and the numbers that they are about.

use crate::case::*;
use crate::random::Random;

#[derive(Clone, Copy, Debug, PartialEq, Eq)]
pub enum Size {
    Small,
    Middle,
    Full,
    /// Full, and each role rests on the one below it, itself or through a kind.
    Ladder,
}

pub struct World {
    pub size: Size,
    pub tables: Tables,
    pub users: Vec<u16>,
    pub roles: Vec<u16>,
    pub facts: Vec<u16>,
    pub privileges: Vec<u16>,
}

pub fn world(random: &mut Random, size: Size) -> World {
    let (users, roles, kinds) = match size {
        Size::Small => (random.between(1, 4), random.between(2, 8), random.below(5)),
        Size::Middle => (random.between(4, 20), random.between(16, 64), random.between(4, 32)),
        Size::Full => (random.between(12, 40), ROLES, MOST_KINDS),
        Size::Ladder => (random.between(1, 2), ROLES, MOST_KINDS),
    };
    let facts = if size == Size::Small { random.between(1, 3) } else { random.between(3, 64) };
    let mut world = World {
        size,
        tables: Tables::default(),
        users: numbers(random, users, 4_095),
        roles: numbers(random, roles, 255),
        facts: numbers(random, facts, 63),
        privileges: numbers(random, if size == Size::Small { 4 } else { 200 }, 1_023),
    };
    for index in 0..kinds {
        let row = match size {
            Size::Ladder => rung_kind(random, &world, index),
            _ => kind(random, &world),
        };
        world.tables.kinds.extend(row);
    }
    add_rules(random, &mut world);
    add_rights(random, &mut world);
    world
}

/// So many different numbers up to a limit: the first, the last, or any.
fn numbers(random: &mut Random, count: usize, last: u16) -> Vec<u16> {
    let last = usize::from(last);
    let chosen: Vec<usize> = match random.below(4) {
        0 | 1 => (0..count).collect(),
        2 => (last + 1 - count..=last).collect(),
        _ => {
            let step = (last + 1) / count;
            (0..count).map(|index| index * step + random.below(step)).collect()
        }
    };
    chosen.into_iter().map(|number| number as u16).collect()
}

fn kind(random: &mut Random, world: &World) -> [u16; KIND] {
    let few = world.roles.len().div_ceil(3);
    let mut row = [world.roles[random.below(few)], random.below(3) as u16, 0, 0, 0, 0, 0];
    let s = random.weighted(&[6, 4, 2, 1, 1]);
    row[2] = s as u16;
    for place in &mut row[3..3 + s] {
        *place = if random.once_in(4) {
            random.pick(&world.roles)
        } else {
            world.roles[random.below(few)]
        };
    }
    row
}

/// A kind for the ladder: those in the lowest role appoint, and the first
/// prerequisite is a rung.
fn rung_kind(random: &mut Random, world: &World, index: usize) -> [u16; KIND] {
    let below = world.roles[2 * index];
    let s = random.between(1, 4);
    let mut row = [world.roles[0], random.below(3) as u16, s as u16, below, 0, 0, 0];
    for place in &mut row[4..3 + s] {
        *place = world.roles[random.below(2 * index + 1)];
    }
    row
}

fn add_rules(random: &mut Random, world: &mut World) {
    let roles = world.roles.len();
    let count = match world.size {
        Size::Small => random.between(roles, 3 * roles),
        Size::Middle => random.between(roles, 128),
        Size::Full | Size::Ladder => MOST_RULES,
    };
    for index in 0..count {
        // First one rule for nearly every role, then further ones for any.
        let place = if index < roles { index } else { random.below(roles) };
        if index < roles && world.size == Size::Small && random.once_in(10) {
            continue;
        }
        let row = rule(random, world, place);
        world.tables.rules.extend(row);
    }
}

/// A rule for the role at this place, mostly on roles at earlier places.
fn rule(random: &mut Random, world: &World, place: usize) -> [u16; RULE] {
    let ladder = world.size == Size::Ladder && place > 0;
    let n = match random.weighted(&[5, 6, 5, 3, 1]) {
        _ if world.size == Size::Ladder && place == 0 => 0,
        0 if !ladder => 0,
        4 => random.between(4, 8),
        n => n.max(1),
    };
    let m = if random.once_in(4) { random.below(n + 1) } else { n };
    let mut row = [0; RULE];
    row[..3].copy_from_slice(&[world.roles[place], n as u16, m as u16]);
    for listed in &mut row[3..3 + n] {
        *listed = condition(random, world, place);
    }
    if ladder {
        row[2] = row[2].max(1);
        // With one user the chain goes down every rung, with two it may skip some.
        let skips = world.users.len() > 1 && random.once_in(8);
        let at = if skips { random.between(3, 2 + usize::from(row[2])) } else { 3 };
        row[at] = rung(random, world, place);
    }
    row
}

/// What a role on the ladder rests on: the one below, or a kind that wants it.
fn rung(random: &mut Random, world: &World, place: usize) -> u16 {
    if place % 2 == 1 && random.once_in(2) {
        return FIRST_KIND + (place / 2) as u16;
    }
    world.roles[place - 1]
}

fn condition(random: &mut Random, world: &World, place: usize) -> u16 {
    let kinds = world.tables.kind_count();
    let weights = match world.size {
        Size::Ladder => [16, 0, 0, 1],
        _ => [6, 1, if kinds > 0 { 4 } else { 0 }, 3],
    };
    match random.weighted(&weights) {
        0 if place > 0 => world.roles[random.below(place)],
        0 | 1 => random.pick(&world.roles),
        2 => FIRST_KIND + random.below(kinds) as u16,
        _ => FIRST_FACT + random.pick(&world.facts),
    }
}

fn add_rights(random: &mut Random, world: &mut World) {
    let count = match world.size {
        Size::Small => random.below(12),
        Size::Middle => random.between(40, 256),
        Size::Full | Size::Ladder => MOST_RIGHTS,
    };
    for _ in 0..count {
        let row = [random.pick(&world.roles), random.pick(&world.privileges)];
        world.tables.rights.extend(row);
    }
}
