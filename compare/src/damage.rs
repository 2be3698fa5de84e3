//! Damage to a sound case: one place of a table or of the state, or a length.

use crate::case::*;
use crate::random::Random;

const NEAR: [u16; 26] = [
    0, 1, 2, 3, 4, 5, 7, 8, 9, 63, 64, 127, 128, 255, 256, 257, 383, 384, 447, 448, 511, 512,
    1_023, 1_024, 4_095, 4_096,
];

/// A number near some limit, or any.
pub fn wild(random: &mut Random, tables: &Tables) -> u16 {
    match random.below(8) {
        0 => random.number(),
        1 => 65_535,
        2 => FIRST_KIND + tables.kind_count() as u16 - random.below(2) as u16,
        3 => (tables.rule_count() as u16).wrapping_sub(random.below(2) as u16),
        _ => random.pick(&NEAR),
    }
}

pub fn damage_tables(random: &mut Random, case: &mut Case) {
    let tables = &mut case.tables;
    match random.weighted(&[12, 8, 5, 5, 4, 4, 3, 2, 2, 1]) {
        0 => field(random, case, |tables| &mut tables.rules),
        1 => field(random, case, |tables| &mut tables.kinds),
        2 => field(random, case, |tables| &mut tables.rights),
        3 => counts_of_rule(random, &mut tables.rules),
        4 => condition(random, tables),
        5 => count_of_kind(random, &mut tables.kinds),
        6 => kind_gone(random, tables),
        7 => {
            let which = random.below(3);
            length(random, pick_table(which, tables).0);
        }
        8 => whole_row(random, tables),
        _ => rows_at_limit(random, tables),
    }
}

fn pick_table(which: usize, tables: &mut Tables) -> (&mut Vec<u16>, usize, usize) {
    match which {
        0 => (&mut tables.rules, RULE, MOST_RULES),
        1 => (&mut tables.kinds, KIND, MOST_KINDS),
        _ => (&mut tables.rights, RIGHT, MOST_RIGHTS),
    }
}

/// Any field of a table.
fn field(random: &mut Random, case: &mut Case, of: fn(&mut Tables) -> &mut Vec<u16>) {
    let number = wild(random, &case.tables);
    let table = of(&mut case.tables);
    if !table.is_empty() {
        let at = random.below(table.len());
        table[at] = number;
    }
}

fn some_row<'t>(random: &mut Random, table: &'t mut [u16], width: usize) -> Option<&'t mut [u16]> {
    let count = table.len() / width;
    table.chunks_exact_mut(width).nth(random.below(count))
}

/// n and m: one more, one less, past the limit, m past n.
fn counts_of_rule(random: &mut Random, rules: &mut [u16]) {
    let Some(row) = some_row(random, rules, RULE) else { return };
    match random.below(6) {
        0 => row[1] = row[1].wrapping_add(1),
        1 => row[1] = row[1].wrapping_sub(1),
        2 => row[2] = row[1] + 1,
        3 => row[2] = row[1],
        4 => row[1] = random.pick(&[8, 9, 10]),
        _ => (row[1], row[2]) = (9, 9),
    }
}

/// A condition at the edge of its ranges; past n too.
fn condition(random: &mut Random, tables: &mut Tables) {
    let kinds = tables.kind_count() as u16;
    let edges = [255, 256, 255 + kinds, 256 + kinds, 383, 384, 447, 448, 449, 65_535];
    let Some(row) = some_row(random, &mut tables.rules, RULE) else { return };
    let listed = usize::from(row[1].min(8));
    let at = if random.once_in(3) { 3 + listed } else { 3 + random.below(listed) };
    if at < RULE {
        row[at] = random.pick(&edges);
    }
}

fn count_of_kind(random: &mut Random, kinds: &mut [u16]) {
    let Some(row) = some_row(random, kinds, KIND) else { return };
    match random.below(5) {
        0 => row[2] = row[2].wrapping_add(1),
        1 => row[2] = row[2].wrapping_sub(1),
        2 => row[2] = random.pick(&[4, 5, 65_535]),
        3 => row[1] = random.pick(&[2, 3, 65_535]),
        _ => row[6] = random.pick(&[0, 1, 255, 256]),
    }
}

/// The last kinds lose their rows.
fn kind_gone(random: &mut Random, tables: &mut Tables) {
    let keep = tables.kind_count().saturating_sub(random.between(1, 2));
    tables.kinds.truncate(keep * KIND);
}

/// A length one more or less, or cut anywhere.
fn length(random: &mut Random, numbers: &mut Vec<u16>) {
    match random.below(4) {
        0 => numbers.push(0),
        1 => drop(numbers.pop()),
        2 => numbers.push(random.number()),
        _ => numbers.truncate(random.below(numbers.len() + 1)),
    }
}

/// A row added or taken away: the rest may still be sound.
fn whole_row(random: &mut Random, tables: &mut Tables) {
    let (table, width, _) = pick_table(random.below(3), tables);
    let longer = random.once_in(2);
    let length = if longer { table.len() + width } else { table.len().saturating_sub(width) };
    table.resize(length, 0);
}

/// As many rows as may be, or one more.
fn rows_at_limit(random: &mut Random, tables: &mut Tables) {
    let (table, width, most) = pick_table(random.below(3), tables);
    table.resize(width * (most + random.below(2)), 0);
}

pub fn damage_state(random: &mut Random, case: &mut Case) {
    let number = wild(random, &case.tables);
    let state = &mut case.state;
    if state.len() != STATE {
        return length(random, state);
    }
    let count_at = random.pick(&[ROW_COUNT, CERTIFICATE_COUNT]);
    match random.weighted(&[3, 3, 4, 8, 4, 4, 3, 3, 2, 1]) {
        0 => state[random.below(FACTS)] = random.pick(&[0, 1, 2, 3, 65_535]),
        1 => facts_gone(random, state),
        2 => count(random, state, count_at),
        3 => row_field(random, state, count_at, number),
        4 => two_rows(random, state, count_at),
        5 => row_gone(random, state, count_at),
        6 => past_count(random, state, count_at),
        7 => state[random.below(STATE)] = number,
        8 => length(random, state),
        _ => state.resize(random.pick(&[0, 64, 65, 833, 1_601, 1_603, 3_204]), 0),
    }
}

/// Facts that rows may rest on become 0: each that is 1, or not, by chance.
fn facts_gone(random: &mut Random, state: &mut [u16]) {
    let facts = &mut state[..FACTS];
    let ones = facts.iter_mut().filter(|fact| **fact == 1);
    for fact in ones {
        if random.once_in(2) {
            *fact = 0;
        }
    }
}

fn count(random: &mut Random, state: &mut [u16], at: usize) {
    state[at] = match random.below(4) {
        0 => state[at].wrapping_add(1),
        1 => state[at].wrapping_sub(1),
        _ => random.pick(&[0, 255, 256, 257, 512, 65_535]),
    };
}

/// Where a row begins, if there is one.
fn some_row_at(random: &mut Random, state: &[u16], count_at: usize) -> Option<usize> {
    let count = rows_after(state, count_at).len();
    (count > 0).then(|| count_at + 1 + 3 * random.below(count))
}

/// A field of a row: near its limit, or what another row has there.
fn row_field(random: &mut Random, state: &mut [u16], count_at: usize, wild: u16) {
    let Some(at) = some_row_at(random, state, count_at) else { return };
    let Some(other) = some_row_at(random, state, count_at) else { return };
    let field = random.below(3);
    state[at + field] = match random.below(4) {
        0 => random.pick(&[4_095, 4_096, 255, 256, 127, 128, 511, 512]),
        1 => state[at + field].wrapping_add(1),
        2 => state[other + field],
        _ => wild,
    };
}

/// Two rows change places, or one becomes the other.
fn two_rows(random: &mut Random, state: &mut [u16], count_at: usize) {
    let Some(one) = some_row_at(random, state, count_at) else { return };
    let Some(other) = some_row_at(random, state, count_at) else { return };
    if random.once_in(3) {
        state.copy_within(one..one + 3, other);
        return;
    }
    for field in 0..3 {
        state.swap(one + field, other + field);
    }
}

/// A row goes, rightly closed up: what rests on it stays without support.
fn row_gone(random: &mut Random, state: &mut [u16], count_at: usize) {
    let Some(at) = some_row_at(random, state, count_at) else { return };
    let end = end_of_rows(count_at);
    state.copy_within(at + 3..end, at);
    state[end - 3..end].fill(0);
    state[count_at] -= 1;
}

/// A number that is not zero past the count: next to it, at the end, or between.
fn past_count(random: &mut Random, state: &mut [u16], count_at: usize) {
    let first = count_at + 1 + 3 * rows_after(state, count_at).len();
    let end = end_of_rows(count_at);
    if first < end {
        let between = first + random.below(end - first);
        let at = random.pick(&[first, first + 1, first + 2, end - 1, between]);
        state[at] = random.pick(&[1, 1, 65_535]);
    }
}
