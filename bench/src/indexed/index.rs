//! The index: who is active in which role, and for whom a certificate of which kind stands. It is built as the rows of a state are
//! walked, and each row is judged on it as it stands then.

use super::policy::{Kind, Rule, Tables, FIRST_KIND, ROLES};
use adobethrum::STATE;

/// User, role, rule; or appointee, kind, appointer.
pub type Row = [u16; 3];

pub const USERS: u16 = 4096;
pub const FACTS: usize = 64;
pub const MOST_ROWS: usize = 256;

/// Where the counts of active rows and of certificates stand; the rows follow.
pub const ROW_COUNT: usize = FACTS;
pub const CERTIFICATE_COUNT: usize = ROW_COUNT + 1 + 3 * MOST_ROWS;

/// One bit for each condition: four words of roles, in which the user is active; two of kinds, of which a certificate stands for the
/// user; one of facts. The last word is the user's number and 1.
pub type Line = [u64; 8];
const KIND_WORDS: usize = 4;
const OWNER: usize = 7;

pub fn bit(line: &Line, condition: u16) -> u64 {
    line[(condition >> 6 & 7) as usize] >> (condition & 63) & 1
}

fn set(line: &mut Line, condition: u16) {
    line[(condition >> 6 & 7) as usize] |= 1 << (condition & 63);
}

pub fn conditions(rule: &Rule) -> &[u16] {
    &rule[3..3 + rule[1].min(8) as usize]
}

pub fn membership(rule: &Rule) -> &[u16] {
    &rule[3..3 + rule[2].min(8) as usize]
}

pub fn prerequisites(kind: &Kind) -> &[u16] {
    &kind[3..3 + kind[2].min(4) as usize]
}

/// All the conditions hold for the line's user.
pub fn hold(line: &Line, kinds: &[Kind], conditions: &[u16]) -> bool {
    conditions.iter().all(|&condition| {
        bit(line, condition) == 1
            && match kinds.get(condition.wrapping_sub(FIRST_KIND) as usize) {
                Some(kind) => prerequisites(kind).iter().all(|&role| bit(line, role) == 1),
                None => true,
            }
    })
}

/// A state of the right form: facts are bits, counts in range, and what is past them zero.
pub struct View<'a> {
    facts: u64,
    pub rows: &'a [Row],
    pub certificates: &'a [Row],
}

impl<'a> View<'a> {
    pub fn of(state: &'a [u16]) -> Option<View<'a>> {
        let state: &[u16; STATE] = state.try_into().ok()?;
        let (facts, rest) = state.split_at(ROW_COUNT);
        let (rows, certificates) = rest.split_at(CERTIFICATE_COUNT - ROW_COUNT);
        let no_bit = facts.iter().fold(0, |seen, &fact| seen | fact) > 1;
        let (rows, certificates) = (counted(rows)?, counted(certificates)?);
        (!no_bit).then(|| View { facts: packed(facts), rows, certificates })
    }
}

fn packed(facts: &[u16]) -> u64 {
    facts.iter().enumerate().fold(0, |bits, (fact, &value)| bits | u64::from(value) << fact)
}

/// The rows of a table that stands behind its count, if those past the count are zero.
fn counted(table: &[u16]) -> Option<&[Row]> {
    let (&count, numbers) = table.split_first()?;
    let (used, rest) = numbers.split_at_checked(3 * count as usize)?;
    let seen = rest.iter().fold(0, |seen, &number| seen | number);
    (seen == 0).then_some(used.as_chunks().0)
}

/// Lines for the users who have rows.
pub struct Index {
    line_of: [u8; USERS as usize],
    lines: [Line; MOST_ROWS],
    count: usize,
}

impl Index {
    pub fn new() -> Index {
        Index { line_of: [0; USERS as usize], lines: [[0; 8]; MOST_ROWS], count: 0 }
    }

    /// The line at which the user's is or would be; it is the user's if its owner is.
    fn at(&self, user: u16) -> usize {
        self.line_of[(user % USERS) as usize] as usize
    }

    fn is_owner(&self, at: usize, user: u16) -> bool {
        self.lines[at][OWNER] == u64::from(user) + 1
    }

    /// The user's line, if the user has rows.
    pub fn line(&self, user: u16) -> Option<&Line> {
        let at = self.at(user);
        self.is_owner(at, user).then(|| &self.lines[at])
    }

    /// The user's line. A user without rows has none: then facts, and the certificates that stand for the user.
    pub fn line_or_certificates(&self, view: &View, user: u16) -> Line {
        let made = || {
            let mut line = [0, 0, 0, 0, 0, 0, view.facts, 0];
            view.certificates.iter().filter(|row| row[0] == user).for_each(|row| set(&mut line, FIRST_KIND + row[1]));
            line
        };
        self.line(user).copied().unwrap_or_else(made)
    }

    pub fn is_active(&self, user: u16, role: u16) -> bool {
        self.line(user).is_some_and(|line| bit(line, role) == 1)
    }

    fn add(&mut self, user: u16, facts: u64) {
        if !self.is_owner(self.at(user), user) {
            self.line_of[(user % USERS) as usize] = self.count as u8;
            self.lines[self.count % MOST_ROWS] = [0, 0, 0, 0, 0, 0, facts, u64::from(user) + 1];
            self.count += 1;
        }
    }

    fn add_certificate(&mut self, [appointee, kind, _]: Row) {
        let at = self.at(appointee);
        let owned = u64::from(self.is_owner(at, appointee));
        self.lines[at][KIND_WORDS + (kind >> 6 & 1) as usize] |= owned << (kind & 63);
    }

    /// The state is sound; if so, the lines are as all its rows and certificates make them. The limit of users is a power of two, so
    /// all keep it exactly if their bits together do.
    pub fn takes(&mut self, tables: &Tables, view: &View) -> bool {
        let users = view.rows.iter().fold(0, |seen, row| seen | row[0]);
        if users >= USERS {
            return false;
        }
        view.rows.iter().for_each(|row| self.add(row[0], view.facts));
        self.takes_certificates(tables.kinds.len(), view.certificates) && self.takes_rows(tables, view.rows)
    }

    /// Ranges are kept, each kind has a row, and no certificate stands twice. A bit for each hash tells most of them apart. This and
    /// the next are not inlined: each loop then has the registers to itself, which saves a twentieth of a call.
    #[inline(never)]
    fn takes_certificates(&mut self, kinds: usize, certificates: &[Row]) -> bool {
        let mut met = [0u64; 512];
        let mut wrong = false;
        for (i, certificate) in certificates.iter().enumerate() {
            let &[appointee, kind, appointer] = certificate;
            wrong |= (appointee | appointer) >= USERS || kind as usize >= kinds;
            let number = u32::from(appointee) | u32::from(kind) << 12 | u32::from(appointer) << 19;
            let hash = number.wrapping_mul(0x9E37_79B1) >> 17;
            let (word, place) = (&mut met[(hash >> 6) as usize % 512], hash & 63);
            if *word >> place & 1 == 1 && place_of(&certificates[..i], certificate).is_some() {
                return false;
            }
            *word |= 1 << place;
            self.add_certificate(*certificate);
        }
        !wrong
    }

    #[inline(never)]
    fn takes_rows(&mut self, tables: &Tables, rows: &[Row]) -> bool {
        rows.iter().all(|&row| self.takes_row(tables, row))
    }

    /// The row is sound over those taken before it. The rule's target is in range, and so is a role that is the same.
    fn takes_row(&mut self, tables: &Tables, [user, role, rule]: Row) -> bool {
        let Some(rule) = tables.rules.get(rule as usize) else { return false };
        let at = self.at(user);
        let line = &mut self.lines[at];
        let fits = rule[0] == role && bit(line, role) == 0 && hold(line, tables.kinds, membership(rule));
        set(line, role % ROLES);
        fits
    }

    /// Rows that have lost their support fall: facts and certificates are now these. A row rests on earlier rows only, so one pass
    /// finds them all. Returns how many fell.
    pub fn sweep(&mut self, tables: &Tables, state: &mut [u16]) -> u16 {
        let (facts, rest) = state.split_at_mut(ROW_COUNT);
        let facts = packed(facts);
        let lines = &mut self.lines[..self.count];
        lines.iter_mut().for_each(|line| *line = [0, 0, 0, 0, line[KIND_WORDS], line[KIND_WORDS + 1], facts, line[OWNER]]);
        retain(&mut rest[..CERTIFICATE_COUNT - ROW_COUNT], |[user, role, rule]| {
            let at = self.at(user);
            let line = &mut self.lines[at];
            let stays = hold(line, tables.kinds, membership(&tables.rules[rule as usize]));
            line[(role >> 6 & 3) as usize] |= u64::from(stays) << (role & 63);
            stays
        })
    }

    /// No certificate of the kind stands for the user any more.
    pub fn lose_kind(&mut self, user: u16, kind: u16) {
        let at = self.at(user);
        let owned = u64::from(self.is_owner(at, user));
        self.lines[at][KIND_WORDS + (kind >> 6 & 1) as usize] &= !(owned << (kind & 63));
    }
}

/// Of the table behind its count only those rows stay that pass the test. Returns how many went.
pub fn retain(table: &mut [u16], mut stays: impl FnMut(Row) -> bool) -> u16 {
    let count = table[0] as usize;
    let rows = &mut table[1..].as_chunks_mut().0[..count];
    let mut kept = 0;
    for i in 0..count {
        let row = rows[i];
        rows[kept] = row;
        kept += usize::from(stays(row));
    }
    rows[kept..].fill([0; 3]);
    table[0] = kept as u16;
    (count - kept) as u16
}

/// Number by number: this is quicker than to compare rows of three at once.
pub fn place_of(certificates: &[Row], &[appointee, kind, appointer]: &Row) -> Option<usize> {
    certificates.iter().position(|&[to, of, by]| to == appointee && of == kind && by == appointer)
}
