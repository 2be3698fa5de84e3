//! The policy: three lent tables of raw numbers, read into rules, kinds and
//! rights. Whatever cannot be read is malformed.

use crate::numbers::*;

/// "All tables are lent 16-bit numbers."
#[derive(Clone, Copy, Debug)]
pub struct Tables<'a> {
    pub rules: &'a [u16],
    pub kinds: &'a [u16],
    pub rights: &'a [u16],
}

#[derive(Clone, Copy, Debug, PartialEq, Eq)]
pub enum Condition {
    Role(Role),
    Kind(KindNumber),
    Fact(Fact),
}

#[derive(Clone, Debug, PartialEq, Eq)]
pub struct Rule {
    pub target: Role,
    pub conditions: Vec<Condition>,
    pub membership_count: usize,
}

#[derive(Clone, Copy, Debug, PartialEq, Eq)]
pub enum Mode {
    AppointerOnly,
    AppointerRole,
    SystemOnly,
}

#[derive(Clone, Debug, PartialEq, Eq)]
pub struct Kind {
    pub appointer_role: Role,
    pub mode: Mode,
    pub prerequisites: Vec<Role>,
}

#[derive(Clone, Copy, Debug, PartialEq, Eq)]
pub struct Right {
    pub role: Role,
    pub privilege: Privilege,
}

#[derive(Clone, Debug, PartialEq, Eq)]
pub struct Policy {
    pub rules: Vec<Rule>,
    pub kinds: Vec<Kind>,
    pub rights: Vec<Right>,
}

impl Rule {
    /// "The first m conditions are the membership rule (definition 8)."
    pub fn membership(&self) -> impl Iterator<Item = &Condition> {
        self.conditions.iter().take(self.membership_count)
    }
}

impl Policy {
    /// The policy that the tables spell, or none if it is malformed.
    pub fn read(tables: &Tables) -> Option<Policy> {
        let kinds = read_table(tables.kinds, MOST_KINDS, read_kind)?;
        let rules = read_table(tables.rules, MOST_RULES, |row| read_rule(row, kinds.len()))?;
        let rights = read_table(tables.rights, MOST_RIGHTS, read_right)?;
        Some(Policy { rules, kinds, rights })
    }

    pub fn rule(&self, number: RuleNumber) -> Option<&Rule> {
        self.rules.get(usize::from(number))
    }

    pub fn kind(&self, number: KindNumber) -> Option<&Kind> {
        self.kinds.get(usize::from(number))
    }
}

/// "A length that isn't a whole number of rows, too many rows, or a row not as
/// above makes the policy malformed; any other is sound."
fn read_table<const WIDTH: usize, T>(
    table: &[u16],
    most: usize,
    read_row: impl Fn(&[u16; WIDTH]) -> Option<T>,
) -> Option<Vec<T>> {
    let (rows, rest) = table.as_chunks::<WIDTH>();
    if !rest.is_empty() || rows.len() > most {
        return None;
    }
    let mut read = Vec::with_capacity(rows.len());
    for row in rows {
        read.push(read_row(row)?);
    }
    Some(read)
}

/// "target role, n, m, then eight conditions"
fn read_rule(row: &[u16; RULE_WIDTH], kinds: usize) -> Option<Rule> {
    let &[target, n, m, ref eight @ ..] = row;
    if !is_role(target) || !membership_fits(m, n) {
        return None;
    }
    let named = listed(eight, n, MOST_CONDITIONS)?;
    let mut conditions = Vec::with_capacity(named.len());
    for &number in named {
        conditions.push(read_condition(number, kinds)?);
    }
    Some(Rule { target, conditions, membership_count: usize::from(m) })
}

/// "m ≤ n"
fn membership_fits(m: u16, n: u16) -> bool {
    m <= n
}

/// "0 to 255 a role; 256 to 383 certificate kind (number − 256), which must be
/// a row of the kinds table; 384 to 447 environment fact (number − 384); 448
/// and above malformed."
fn read_condition(number: u16, kinds: usize) -> Option<Condition> {
    match number {
        0..=255 => Some(Condition::Role(number)),
        256..=383 => row_of_kinds(number - 256, kinds).map(Condition::Kind),
        384..=447 => Some(Condition::Fact(number - 384)),
        448.. => None,
    }
}

/// "which must be a row of the kinds table"
fn row_of_kinds(kind: KindNumber, kinds: usize) -> Option<KindNumber> {
    (usize::from(kind) < kinds).then_some(kind)
}

/// "appointer role, mode, s, then four prerequisite roles"
fn read_kind(row: &[u16; KIND_WIDTH]) -> Option<Kind> {
    let &[appointer_role, mode, s, ref four @ ..] = row;
    let mode = read_mode(mode)?;
    let prerequisites = listed(four, s, MOST_PREREQUISITES)?;
    if !is_role(appointer_role) || !prerequisites.iter().all(|&role| is_role(role)) {
        return None;
    }
    Some(Kind { appointer_role, mode, prerequisites: prerequisites.to_vec() })
}

/// "Mode 0 appointer-only, 1 appointer-role, 2 system only."
fn read_mode(number: u16) -> Option<Mode> {
    match number {
        0 => Some(Mode::AppointerOnly),
        1 => Some(Mode::AppointerRole),
        2 => Some(Mode::SystemOnly),
        _ => None,
    }
}

/// "Rights, at most 2,048 rows of 2: role, privilege."
fn read_right(&[role, privilege]: &[u16; RIGHT_WIDTH]) -> Option<Right> {
    (is_role(role) && is_privilege(privilege)).then_some(Right { role, privilege })
}

/// The first `count` of the numbers, if that many are allowed and the others
/// are as they should be: "those past n being 0", "those past s being 0".
fn listed(numbers: &[u16], count: u16, most: usize) -> Option<&[u16]> {
    let count = usize::from(count);
    if count > most {
        return None;
    }
    let (listed, past) = numbers.split_at(count.min(numbers.len()));
    all_zero(past).then_some(listed)
}

pub fn all_zero(numbers: &[u16]) -> bool {
    numbers.iter().all(|&number| number == 0)
}
