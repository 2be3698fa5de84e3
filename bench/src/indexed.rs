//! A baseline with an index, unverified: the role engine as one would write it to judge tables at the speed of reading them.
//!
//! It works on the same lent numbers and judges them at each call. What it looks up, it looks up in an index on the stack that is built
//! as the rows are walked; there is no allocation and nothing is kept between calls. A call answers `Ok(second)` or `Err(code)`.

mod index;
mod policy;

use adobethrum::{Policy, LIST, STATE};
use index::*;
use policy::*;

type Outcome = Result<u16, u16>;

/// The policy and the state by rows, and the index filled; or 1, or 2.
fn judge<'p, 's>(policy: Policy<'p>, state: &'s [u16], index: &mut Index) -> Result<(Tables<'p>, View<'s>), u16> {
    let tables = Tables::of(policy).ok_or(1u16)?;
    let view = View::of(state).ok_or(2u16)?;
    ask(index.takes(&tables, &view), 2)?;
    Ok((tables, view))
}

/// Refuses with the code unless it is so.
fn ask(so: bool, code: u16) -> Result<(), u16> {
    if so {
        Ok(())
    } else {
        Err(code)
    }
}

/// One row more in the table behind the count that stands at a place.
fn append(state: &mut [u16], count: usize, row: Row) {
    let at = count + 1 + 3 * state[count] as usize;
    state[at..at + 3].copy_from_slice(&row);
    state[count] += 1;
}

/// The certificate at a place goes, those behind it close the gap, and rows that rested on it fall: none while another one of the kind
/// stands for the user.
fn take_certificate(tables: &Tables, index: &mut Index, state: &mut [u16], place: usize) -> u16 {
    let count = state[CERTIFICATE_COUNT] as usize;
    let gap = CERTIFICATE_COUNT + 1 + 3 * place;
    let end = CERTIFICATE_COUNT + 1 + 3 * count;
    let [appointee, kind] = [state[gap], state[gap + 1]];
    state.copy_within(gap + 3..end, gap);
    state[end - 3..end].fill(0);
    state[CERTIFICATE_COUNT] -= 1;
    let left: &[Row] = state[CERTIFICATE_COUNT + 1..end - 3].as_chunks().0;
    if left.iter().any(|&[to, of, _]| [to, of] == [appointee, kind]) {
        return 0;
    }
    index.lose_kind(appointee, kind);
    index.sweep(tables, state)
}

pub fn fresh(state: &mut [u16]) -> Outcome {
    ask(state.len() == STATE, 2)?;
    state.fill(0);
    Ok(0)
}

pub fn activate(policy: Policy, state: &mut [u16], user: u16, role: u16) -> Outcome {
    let mut index = Index::new();
    let (tables, view) = judge(policy, state, &mut index)?;
    ask(user < USERS && role < ROLES, 3)?;
    ask(!index.is_active(user, role), 4)?;
    let line = index.line_or_certificates(&view, user);
    let satisfied = |rule: &Rule| rule[0] == role && hold(&line, tables.kinds, conditions(rule));
    let rule = tables.rules.iter().position(satisfied).ok_or(5u16)? as u16;
    ask(view.rows.len() < MOST_ROWS, 6)?;
    append(state, ROW_COUNT, [user, role, rule]);
    Ok(rule)
}

pub fn appoint(policy: Policy, state: &mut [u16], appointer: u16, appointee: u16, kind: u16) -> Outcome {
    let mut index = Index::new();
    let (tables, view) = judge(policy, state, &mut index)?;
    ask(appointer < USERS && appointee < USERS, 3)?;
    let row = tables.kinds.get(kind as usize).ok_or(3u16)?;
    let certificate = [appointee, kind, appointer];
    ask(index.is_active(appointer, row[0]), 7)?;
    ask(place_of(view.certificates, &certificate).is_none(), 8)?;
    ask(view.certificates.len() < MOST_ROWS, 6)?;
    append(state, CERTIFICATE_COUNT, certificate);
    Ok(0)
}

pub fn revoke(policy: Policy, state: &mut [u16], caller: u16, appointee: u16, kind: u16, appointer: u16) -> Outcome {
    let mut index = Index::new();
    let (tables, view) = judge(policy, state, &mut index)?;
    ask(caller < USERS && appointee < USERS && appointer < USERS, 3)?;
    let row = tables.kinds.get(kind as usize).ok_or(3u16)?;
    let place = place_of(view.certificates, &[appointee, kind, appointer]).ok_or(9u16)?;
    let allowed = match row[1] {
        0 => caller == appointer,
        1 => index.is_active(caller, row[0]),
        _ => false,
    };
    ask(allowed, 10)?;
    Ok(take_certificate(&tables, &mut index, state, place))
}

pub fn withdraw(policy: Policy, state: &mut [u16], appointee: u16, kind: u16, appointer: u16) -> Outcome {
    let mut index = Index::new();
    let (tables, view) = judge(policy, state, &mut index)?;
    ask(appointee < USERS && (kind as usize) < tables.kinds.len() && appointer < USERS, 3)?;
    let place = place_of(view.certificates, &[appointee, kind, appointer]).ok_or(9u16)?;
    Ok(take_certificate(&tables, &mut index, state, place))
}

/// In a sound state nothing falls where no fact goes.
pub fn environment(policy: Policy, state: &mut [u16], fact: u16, value: u16) -> Outcome {
    let mut index = Index::new();
    let (tables, _) = judge(policy, state, &mut index)?;
    ask((fact as usize) < FACTS && value < 2, 3)?;
    let goes = value < state[fact as usize];
    state[fact as usize] = value;
    Ok(if goes { index.sweep(&tables, state) } else { 0 })
}

pub fn logout(policy: Policy, state: &mut [u16], user: u16) -> Outcome {
    let mut index = Index::new();
    judge(policy, state, &mut index)?;
    ask(user < USERS, 3)?;
    Ok(retain(&mut state[ROW_COUNT..CERTIFICATE_COUNT], |[of, _, _]| of != user))
}

pub fn invoke(policy: Policy, state: &[u16], user: u16, privilege: u16) -> Outcome {
    let mut index = Index::new();
    let (tables, _) = judge(policy, state, &mut index)?;
    ask(user < USERS && privilege < PRIVILEGES, 3)?;
    let allowed = index.line(user).is_some_and(|line| some_has_right(tables.rights, privilege, |role| bit(line, role) == 1));
    Ok(allowed as u16)
}

/// The roles that a condition asks for: a role itself, a kind its prerequisites, a fact none.
fn roles_asked<'a>(kinds: &'a [Kind], condition: &'a u16) -> &'a [u16] {
    match *condition {
        ..FIRST_KIND => std::slice::from_ref(condition),
        FIRST_KIND..FIRST_FACT => prerequisites(&kinds[(condition - FIRST_KIND) as usize]),
        _ => &[],
    }
}

/// A row rests on earlier rows only, so one pass backwards meets each role that is asked once.
pub fn effective(policy: Policy, state: &[u16], user: u16, role: u16, privilege: u16) -> Outcome {
    let mut index = Index::new();
    let (tables, view) = judge(policy, state, &mut index)?;
    ask(user < USERS && role < ROLES && privilege < PRIVILEGES, 3)?;
    ask(index.is_active(user, role), 12)?;
    let mut asked = [false; ROLES as usize];
    asked[role as usize] = true;
    for &[of, role, rule] in view.rows.iter().rev() {
        if of == user && asked[role as usize] {
            let conditions = membership(&tables.rules[rule as usize]).iter();
            conditions.flat_map(|condition| roles_asked(tables.kinds, condition)).for_each(|&role| asked[role as usize] = true);
        }
    }
    Ok(some_has_right(tables.rights, privilege, |role| asked[role as usize]) as u16)
}

/// A row rests on earlier rows only, so no role is met twice.
pub fn chain(policy: Policy, state: &[u16], user: u16, role: u16, list: &mut [u16]) -> Outcome {
    let mut index = Index::new();
    let (tables, view) = judge(policy, state, &mut index)?;
    ask(user < USERS && role < ROLES && list.len() == LIST, 3)?;
    ask(index.is_active(user, role), 12)?;
    let mut rule_of = [0; ROLES as usize];
    view.rows.iter().filter(|row| row[0] == user).for_each(|&[_, role, rule]| rule_of[role as usize] = rule);
    let below = |role: u16| {
        let conditions = membership(&tables.rules[rule_of[role as usize] as usize]).iter();
        conditions.flat_map(|condition| roles_asked(tables.kinds, condition)).next().copied()
    };
    let mut next = Some(role);
    let mut written = 0;
    while let Some(role) = next {
        list[written] = role;
        written += 1;
        next = below(role);
    }
    list[written..].fill(0);
    Ok(written as u16)
}
