//! The state: raw numbers on the outside; facts, rows and certificates inside.

use std::collections::BTreeSet;

use crate::numbers::*;
use crate::policy::all_zero;
use crate::sets::NumberSet;

/// "active rows (user, role, rule)"
#[derive(Clone, Copy, Debug, PartialEq, Eq)]
pub struct ActiveRow {
    pub user: User,
    pub role: Role,
    pub rule: RuleNumber,
}

impl From<[u16; STATE_ROW_WIDTH]> for ActiveRow {
    fn from([user, role, rule]: [u16; STATE_ROW_WIDTH]) -> ActiveRow {
        ActiveRow { user, role, rule }
    }
}

impl From<&ActiveRow> for [u16; STATE_ROW_WIDTH] {
    fn from(row: &ActiveRow) -> [u16; STATE_ROW_WIDTH] {
        [row.user, row.role, row.rule]
    }
}

/// "certificate rows (appointee, kind, appointer)"
#[derive(Clone, Copy, Debug, PartialEq, Eq, Hash)]
pub struct Certificate {
    pub appointee: User,
    pub kind: KindNumber,
    pub appointer: User,
}

impl From<[u16; STATE_ROW_WIDTH]> for Certificate {
    fn from([appointee, kind, appointer]: [u16; STATE_ROW_WIDTH]) -> Certificate {
        Certificate { appointee, kind, appointer }
    }
}

impl From<&Certificate> for [u16; STATE_ROW_WIDTH] {
    fn from(row: &Certificate) -> [u16; STATE_ROW_WIDTH] {
        [row.appointee, row.kind, row.appointer]
    }
}

/// "Rows stand in order of arrival"
#[derive(Clone, Debug, PartialEq, Eq)]
pub struct State {
    pub true_facts: BTreeSet<Fact>,
    pub rows: Vec<ActiveRow>,
    pub certificates: Vec<Certificate>,
}

/// Who is active in what.
pub type ActiveRoles = NumberSet<(User, Role)>;

pub fn active_roles(rows: &[ActiveRow]) -> ActiveRoles {
    rows.iter().map(|row| (row.user, row.role)).collect()
}

impl State {
    pub fn fresh() -> State {
        State { true_facts: BTreeSet::new(), rows: Vec::new(), certificates: Vec::new() }
    }

    /// The state that the numbers spell, if they have its shape.
    pub fn read(raw: &[u16]) -> Option<State> {
        if !has_state_length(raw) {
            return None;
        }
        let (facts, tables) = raw.split_at_checked(FACTS)?;
        let (rows, certificates) = tables.split_at_checked(STATE_TABLE_LENGTH)?;
        Some(State {
            true_facts: read_facts(facts)?,
            rows: read_rows(rows, MOST_ACTIVE_ROWS)?,
            certificates: read_rows(certificates, MOST_CERTIFICATES)?,
        })
    }

    /// Writes the state as raw numbers over a slice of the state's length.
    pub fn write(&self, raw: &mut [u16]) {
        raw.fill(0);
        let (facts, tables) = raw.split_at_mut(FACTS);
        for &fact in &self.true_facts {
            facts[usize::from(fact)] = 1;
        }
        let (rows, certificates) = tables.split_at_mut(STATE_TABLE_LENGTH);
        write_rows(rows, &self.rows);
        write_rows(certificates, &self.certificates);
    }

    pub fn is_active(&self, user: User, role: Role) -> bool {
        self.rows.iter().any(|row| row.user == user && row.role == role)
    }

    pub fn stands(&self, certificate: Certificate) -> bool {
        self.certificates.contains(&certificate)
    }
}

/// "The state is exactly 1,602 numbers"
pub fn has_state_length(raw: &[u16]) -> bool {
    raw.len() == STATE_LENGTH
}

/// The facts that are 1; none if a number is not a fact's value.
fn read_facts(numbers: &[u16]) -> Option<BTreeSet<Fact>> {
    if !numbers.iter().all(|&number| is_fact_value(number)) {
        return None;
    }
    Some((0..).zip(numbers).filter(|&(_, &number)| number == 1).map(|(fact, _)| fact).collect())
}

/// A count and its rows: "a count up to 256", "those past the count are zero".
fn read_rows<Row: From<[u16; STATE_ROW_WIDTH]>>(numbers: &[u16], most: usize) -> Option<Vec<Row>> {
    let (&count, table) = numbers.split_first()?;
    let count = usize::from(count);
    if count > most {
        return None;
    }
    let (rows, past) = table.split_at_checked(count * STATE_ROW_WIDTH)?;
    let (rows, _) = rows.as_chunks::<STATE_ROW_WIDTH>();
    all_zero(past).then(|| rows.iter().map(|&row| row.into()).collect())
}

/// The count, then the rows without gaps: "a removed row closes its gap".
fn write_rows<'a, Row>(numbers: &mut [u16], rows: &'a [Row])
where
    [u16; STATE_ROW_WIDTH]: From<&'a Row>,
{
    numbers[0] = rows.len() as u16;
    for (place, row) in numbers[1..].chunks_exact_mut(STATE_ROW_WIDTH).zip(rows) {
        place.copy_from_slice(&<[u16; STATE_ROW_WIDTH]>::from(row));
    }
}
