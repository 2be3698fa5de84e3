//! The calls on a policy and a state that are known to be sound: these are not judged, only what is asked is.

use super::{active, ask, conditions, membership, place_of, prerequisites, used, Ground, Kind, Outcome, Row, Rule, Tables, View};
use super::{CERTIFICATE_COUNT, FACTS, FIRST_FACT, FIRST_KIND, MOST_ROWS, PRIVILEGES, ROLES, ROW_COUNT, USERS};
use adobethrum::{Policy, LIST, STATE};

/// One row more in the table behind the count that stands at a place.
fn append(state: &mut [u16], count: usize, row: Row) {
    let at = count + 1 + 3 * state[count] as usize;
    state[at..at + 3].copy_from_slice(&row);
    state[count] += 1;
}

/// Of the table behind its count only those rows stay that pass the test, which is given the rows kept so far. Returns how many went.
fn retain(table: &mut [u16], stays: impl Fn(&[Row], Row) -> bool) -> u16 {
    let count = table[0] as usize;
    let rows = &mut table[1..].as_chunks_mut().0[..count];
    let mut kept = 0;
    for i in 0..count {
        let row = rows[i];
        if stays(&rows[..kept], row) {
            rows[kept] = row;
            kept += 1;
        }
    }
    rows[kept..].fill([0; 3]);
    table[0] = kept as u16;
    (count - kept) as u16
}

/// Rows that have lost their support fall. A row rests on earlier rows only, so one pass finds them all.
fn fall(tables: &Tables, state: &mut [u16]) -> u16 {
    let (facts, rest) = state.split_at_mut(ROW_COUNT);
    let (rows, certificates) = rest.split_at_mut(CERTIFICATE_COUNT - ROW_COUNT);
    let ground = Ground { kinds: tables.kinds, facts, certificates: used(certificates) };
    retain(rows, |kept, [user, _, rule]| ground.all_hold(kept, user, membership(&tables.rules[rule as usize])))
}

/// The certificate at a place goes, those behind it close the gap, and rows that rested on it fall.
fn take_certificate(tables: &Tables, state: &mut [u16], place: usize) -> u16 {
    let count = state[CERTIFICATE_COUNT] as usize;
    let gap = CERTIFICATE_COUNT + 1 + 3 * place;
    let end = CERTIFICATE_COUNT + 1 + 3 * count;
    state.copy_within(gap + 3..end, gap);
    state[end - 3..end].fill(0);
    state[CERTIFICATE_COUNT] -= 1;
    fall(tables, state)
}

pub fn fresh(state: &mut [u16]) -> Outcome {
    ask(state.len() == STATE, 2)?;
    state.fill(0);
    Ok(0)
}

pub fn activate(policy: Policy, state: &mut [u16], user: u16, role: u16) -> Outcome {
    let (tables, now) = (Tables::by_rows(policy), View::by_rows(state));
    ask(user < USERS && role < ROLES, 3)?;
    ask(!active(now.rows, user, role), 4)?;
    let ground = now.ground(tables.kinds);
    let satisfied = |rule: &Rule| rule[0] == role && ground.all_hold(now.rows, user, conditions(rule));
    let rule = tables.rules.iter().position(satisfied).ok_or(5u16)? as u16;
    ask(now.rows.len() < MOST_ROWS, 6)?;
    append(state, ROW_COUNT, [user, role, rule]);
    Ok(rule)
}

pub fn appoint(policy: Policy, state: &mut [u16], appointer: u16, appointee: u16, kind: u16) -> Outcome {
    let (tables, now) = (Tables::by_rows(policy), View::by_rows(state));
    ask(appointer < USERS && appointee < USERS, 3)?;
    let row = tables.kind(kind).ok_or(3u16)?;
    let certificate = [appointee, kind, appointer];
    ask(active(now.rows, appointer, row[0]), 7)?;
    ask(place_of(now.certificates, &certificate).is_none(), 8)?;
    ask(now.certificates.len() < MOST_ROWS, 6)?;
    append(state, CERTIFICATE_COUNT, certificate);
    Ok(0)
}

pub fn revoke(policy: Policy, state: &mut [u16], caller: u16, appointee: u16, kind: u16, appointer: u16) -> Outcome {
    let (tables, now) = (Tables::by_rows(policy), View::by_rows(state));
    ask(caller < USERS && appointee < USERS && appointer < USERS, 3)?;
    let row = tables.kind(kind).ok_or(3u16)?;
    let certificate = [appointee, kind, appointer];
    let place = place_of(now.certificates, &certificate).ok_or(9u16)?;
    let allowed = match row[1] {
        0 => caller == appointer,
        1 => active(now.rows, caller, row[0]),
        _ => false,
    };
    ask(allowed, 10)?;
    Ok(take_certificate(&tables, state, place))
}

pub fn withdraw(policy: Policy, state: &mut [u16], appointee: u16, kind: u16, appointer: u16) -> Outcome {
    let (tables, now) = (Tables::by_rows(policy), View::by_rows(state));
    ask(appointee < USERS && tables.kind(kind).is_some() && appointer < USERS, 3)?;
    let certificate = [appointee, kind, appointer];
    let place = place_of(now.certificates, &certificate).ok_or(9u16)?;
    Ok(take_certificate(&tables, state, place))
}

pub fn environment(policy: Policy, state: &mut [u16], fact: u16, value: u16) -> Outcome {
    let tables = Tables::by_rows(policy);
    ask((fact as usize) < FACTS && value < 2, 3)?;
    state[fact as usize] = value;
    Ok(fall(&tables, state))
}

pub fn logout(_: Policy, state: &mut [u16], user: u16) -> Outcome {
    ask(user < USERS, 3)?;
    Ok(retain(&mut state[ROW_COUNT..CERTIFICATE_COUNT], |_, [of, _, _]| of != user))
}

pub fn invoke(policy: Policy, state: &[u16], user: u16, privilege: u16) -> Outcome {
    let (tables, now) = (Tables::by_rows(policy), View::by_rows(state));
    ask(user < USERS && privilege < PRIVILEGES, 3)?;
    let allowed = tables.rights.iter().any(|&[role, to]| to == privilege && active(now.rows, user, role));
    Ok(allowed as u16)
}

/// The roles that a condition asks for: a role itself, a kind its prerequisites, a fact none.
fn roles_asked<'a>(kinds: &'a [Kind], condition: &'a u16) -> &'a [u16] {
    match *condition {
        ..FIRST_KIND => std::slice::from_ref(condition),
        FIRST_KIND..FIRST_FACT => prerequisites(&kinds[(condition - FIRST_KIND) as usize]),
        _ => &[],
    }
}

/// A row rests on earlier rows only, so one pass backwards meets each role that is asked once.
pub fn effective(policy: Policy, state: &[u16], user: u16, role: u16, privilege: u16) -> Outcome {
    let (tables, now) = (Tables::by_rows(policy), View::by_rows(state));
    ask(user < USERS && role < ROLES && privilege < PRIVILEGES, 3)?;
    let place = now.rows.iter().position(|&[of, active, _]| [of, active] == [user, role]).ok_or(12u16)?;
    let mut asked = [false; ROLES as usize];
    asked[role as usize] = true;
    for &[of, role, rule] in now.rows[..=place].iter().rev() {
        if of == user && asked[role as usize] {
            let conditions = membership(&tables.rules[rule as usize]).iter();
            conditions.flat_map(|condition| roles_asked(tables.kinds, condition)).for_each(|&role| asked[role as usize] = true);
        }
    }
    let carried = tables.rights.iter().any(|&[role, to]| to == privilege && asked[role as usize]);
    Ok(carried as u16)
}

/// A row rests on earlier rows only, so no role is met twice.
pub fn chain(policy: Policy, state: &[u16], user: u16, role: u16, list: &mut [u16]) -> Outcome {
    let (tables, now) = (Tables::by_rows(policy), View::by_rows(state));
    ask(user < USERS && role < ROLES && list.len() == LIST, 3)?;
    ask(active(now.rows, user, role), 12)?;
    let mut earlier = now.rows;
    let mut next = Some(role);
    let mut written = 0;
    while let Some(role) = next {
        list[written] = role;
        written += 1;
        let place = earlier.iter().rposition(|&[of, active, _]| [of, active] == [user, role]);
        next = place.and_then(|place| {
            let conditions = membership(&tables.rules[earlier[place][2] as usize]);
            earlier = &earlier[..place];
            conditions.iter().find_map(|condition| roles_asked(tables.kinds, condition).first().copied())
        });
    }
    list[written..].fill(0);
    Ok(written as u16)
}
