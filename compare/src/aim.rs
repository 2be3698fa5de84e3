//! What must be done next so that a user comes into a role: this fills states
//! that events chosen blindly would leave half empty.

use crate::case::*;
use crate::moves::holder;
use crate::random::Random;
use crate::worlds::World;

/// The event that is wanted next, unless the way is too long.
pub fn aim(
    random: &mut Random,
    world: &World,
    state: &[u16],
    user: u16,
    role: u16,
    steps: usize,
) -> Option<Event> {
    if steps == 0 {
        return None;
    }
    let rules = world.tables.rules.chunks_exact(RULE).filter(|row| row[0] == role);
    let rules: Vec<&[u16]> = rules.collect();
    let rule = *rules.get(random.below(rules.len()))?;
    for &condition in &rule[3..3 + usize::from(rule[1])] {
        match missing(world, state, user, condition) {
            None => {}
            Some(Missing::Fact(fact)) => return Some(Event::new(Name::Environment, &[fact, 1])),
            Some(Missing::Role(role)) => return aim(random, world, state, user, role, steps - 1),
            Some(Missing::Certificate(kind)) => {
                return certificate(random, world, state, user, kind, steps);
            }
        }
    }
    Some(Event::new(Name::Activate, &[user, role]))
}

enum Missing {
    Role(u16),
    Certificate(u16),
    Fact(u16),
}

fn missing(world: &World, state: &[u16], user: u16, condition: u16) -> Option<Missing> {
    let is_active = |role| active_rows(state).iter().any(|row| row[0] == user && row[1] == role);
    match condition {
        ..FIRST_KIND => (!is_active(condition)).then_some(Missing::Role(condition)),
        FIRST_KIND..FIRST_FACT => {
            let kind = condition - FIRST_KIND;
            let stands = certificates(state).iter().any(|row| row[0] == user && row[1] == kind);
            let row = &world.tables.kinds[KIND * usize::from(kind)..][..KIND];
            let prerequisites = &row[3..3 + usize::from(row[2])];
            let role = prerequisites.iter().find(|&&role| !is_active(role));
            if stands {
                role.map(|&role| Missing::Role(role))
            } else {
                Some(Missing::Certificate(kind))
            }
        }
        _ => {
            let fact = condition - FIRST_FACT;
            (state[usize::from(fact)] == 0).then_some(Missing::Fact(fact))
        }
    }
}

/// An appointment, or first what brings an appointer into the appointer role.
fn certificate(
    random: &mut Random,
    world: &World,
    state: &[u16],
    user: u16,
    kind: u16,
    steps: usize,
) -> Option<Event> {
    let role = world.tables.kinds[KIND * usize::from(kind)];
    match holder(random, state, role) {
        Some(appointer) => Some(Event::new(Name::Appoint, &[appointer, user, kind])),
        None => {
            let appointer = random.pick(&world.users);
            aim(random, world, state, appointer, role, steps - 1)
        }
    }
}
