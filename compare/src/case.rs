//! A case: tables, a state, and the events that are run on them.

/// The numbers of a row, and the most rows, of each table of a policy.
pub const RULE: usize = 11;
pub const KIND: usize = 7;
pub const RIGHT: usize = 2;
pub const MOST_RULES: usize = 512;
pub const MOST_KINDS: usize = 128;
pub const MOST_RIGHTS: usize = 2_048;
/// Where kinds and facts begin among the numbers of conditions, after the roles.
pub const FIRST_KIND: u16 = 256;
pub const FIRST_FACT: u16 = 384;
pub const ROLES: usize = 256;
pub const FACTS: usize = 64;
pub const STATE: usize = 1_602;
pub const LIST: usize = 256;
/// Where the counts of active rows and of certificates stand in a state.
pub const ROW_COUNT: usize = 64;
pub const CERTIFICATE_COUNT: usize = 833;
/// The most active rows of a state, and the most certificates.
pub const MOST_ROWS: usize = 256;

#[derive(Clone, Copy, Debug, PartialEq, Eq)]
pub enum Name {
    Fresh,
    Activate,
    Appoint,
    Revoke,
    Withdraw,
    Environment,
    Logout,
    Invoke,
    Effective,
    Chain,
}

use Name::*;

pub const NAMES: [Name; 10] =
    [Fresh, Activate, Appoint, Revoke, Withdraw, Environment, Logout, Invoke, Effective, Chain];

impl Name {
    pub fn word(self) -> &'static str {
        match self {
            Fresh => "fresh",
            Activate => "activate",
            Appoint => "appoint",
            Revoke => "revoke",
            Withdraw => "withdraw",
            Environment => "env",
            Logout => "logout",
            Invoke => "invoke",
            Effective => "effective",
            Chain => "chain",
        }
    }

    /// How many numbers the call takes.
    pub fn count(self) -> usize {
        match self {
            Fresh => 0,
            Logout => 1,
            Activate | Environment | Invoke | Chain => 2,
            Appoint | Withdraw | Effective => 3,
            Revoke => 4,
        }
    }

    /// Which of the numbers is a kind.
    pub fn kind_at(self) -> Option<usize> {
        match self {
            Appoint | Revoke => Some(2),
            Withdraw => Some(1),
            _ => None,
        }
    }
}

#[derive(Clone, Debug, PartialEq, Eq)]
pub struct Event {
    pub name: Name,
    pub numbers: [u16; 4],
    /// The list lent to chain, as it is before the call.
    pub list: Vec<u16>,
}

impl Event {
    pub fn new(name: Name, given: &[u16]) -> Event {
        let mut numbers = [0; 4];
        numbers[..given.len()].copy_from_slice(given);
        Event { name, numbers, list: Vec::new() }
    }

    pub fn given(&self) -> &[u16] {
        &self.numbers[..self.name.count()]
    }
}

#[derive(Clone, Debug, Default, PartialEq, Eq)]
pub struct Tables {
    pub rules: Vec<u16>,
    pub kinds: Vec<u16>,
    pub rights: Vec<u16>,
}

impl Tables {
    pub fn kind_count(&self) -> usize {
        self.kinds.len() / KIND
    }

    pub fn rule_count(&self) -> usize {
        self.rules.len() / RULE
    }
}

#[derive(Clone, Debug, PartialEq, Eq)]
pub struct Case {
    /// The number that stands on both sides of all that is lent.
    pub guard: u16,
    pub tables: Tables,
    pub state: Vec<u16>,
    pub events: Vec<Event>,
}

/// The rows after a count of the state, as far as they are there: the state may
/// be damaged.
pub fn rows_after(state: &[u16], count_at: usize) -> &[[u16; 3]] {
    let Some((&count, rest)) = state.get(count_at..).and_then(|part| part.split_first()) else {
        return &[];
    };
    let (rows, _) = rest.as_chunks::<3>();
    &rows[..usize::from(count).min(rows.len()).min(MOST_ROWS)]
}

/// Where the room for the rows after a count ends.
pub fn end_of_rows(count_at: usize) -> usize {
    count_at + 1 + 3 * MOST_ROWS
}

pub fn active_rows(state: &[u16]) -> &[[u16; 3]] {
    rows_after(state, ROW_COUNT)
}

pub fn certificates(state: &[u16]) -> &[[u16; 3]] {
    rows_after(state, CERTIFICATE_COUNT)
}
