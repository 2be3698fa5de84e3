//! The baseline: the role engine as one would write it from its rules in ordinary Rust, unverified.
//!
//! It works on the same lent numbers in place. Each call judges policy and state by plain scans, and then does what the unjudged call
//! does; there is no index, no allocation, and no copy of a table. A call answers `Ok(second)` or `Err(code)`.

pub mod unjudged;

use adobethrum::{Policy, STATE};
pub use unjudged::fresh;

/// Target role, n, m, eight conditions.
type Rule = [u16; 11];
/// Appointer role, mode, s, four prerequisite roles.
type Kind = [u16; 7];
/// Role, privilege.
type Right = [u16; 2];
/// User, role, rule; or appointee, kind, appointer.
type Row = [u16; 3];

type Outcome = Result<u16, u16>;

const USERS: u16 = 4096;
const ROLES: u16 = 256;
const PRIVILEGES: u16 = 1024;
const FACTS: usize = 64;
const MOST_ROWS: usize = 256;
const FIRST_KIND: u16 = 256;
const FIRST_FACT: u16 = 384;
const PAST_FACTS: u16 = 448;

/// Where the counts of active rows and of certificates stand; the rows follow.
const ROW_COUNT: usize = FACTS;
const CERTIFICATE_COUNT: usize = ROW_COUNT + 1 + 3 * MOST_ROWS;

/// A policy, by rows.
struct Tables<'a> {
    rules: &'a [Rule],
    kinds: &'a [Kind],
    rights: &'a [Right],
}

/// A state, by rows: those within the counts.
struct View<'a> {
    facts: &'a [u16],
    rows: &'a [Row],
    certificates: &'a [Row],
}

/// What conditions are judged on, besides the active rows.
struct Ground<'a> {
    kinds: &'a [Kind],
    facts: &'a [u16],
    certificates: &'a [Row],
}

impl<'a> Tables<'a> {
    /// The policy by rows, if it is sound.
    fn of(policy: Policy<'a>) -> Option<Tables<'a>> {
        let (rules, []) = policy.rules.as_chunks() else { return None };
        let (kinds, []) = policy.kinds.as_chunks() else { return None };
        let (rights, []) = policy.rights.as_chunks() else { return None };
        let sound = rules.len() <= 512
            && kinds.len() <= 128
            && rights.len() <= 2048
            && rules.iter().all(|rule| rule_fits(rule, kinds.len() as u16))
            && kinds.iter().all(kind_fits)
            && rights.iter().all(|&[role, privilege]| role < ROLES && privilege < PRIVILEGES);
        sound.then_some(Tables { rules, kinds, rights })
    }

    /// The policy by rows, if it is known to be sound.
    fn by_rows(policy: Policy<'a>) -> Tables<'a> {
        Tables { rules: policy.rules.as_chunks().0, kinds: policy.kinds.as_chunks().0, rights: policy.rights.as_chunks().0 }
    }

    /// The kind's row, if there is one.
    fn kind(&self, kind: u16) -> Option<&'a Kind> {
        self.kinds.get(kind as usize)
    }
}

fn rule_fits(&[target, n, m, ref conditions @ ..]: &Rule, kinds: u16) -> bool {
    let fits = |&c: &u16| c < FIRST_KIND + kinds || (FIRST_FACT..PAST_FACTS).contains(&c);
    target < ROLES && m <= n && n <= 8 && {
        let (named, rest) = conditions.split_at(n as usize);
        named.iter().all(fits) && rest.iter().all(|&c| c == 0)
    }
}

fn kind_fits(&[appointer, mode, s, ref prerequisites @ ..]: &Kind) -> bool {
    appointer < ROLES && mode < 3 && s <= 4 && {
        let (named, rest) = prerequisites.split_at(s as usize);
        named.iter().all(|&role| role < ROLES) && rest.iter().all(|&role| role == 0)
    }
}

fn conditions(rule: &Rule) -> &[u16] {
    &rule[3..3 + rule[1] as usize]
}

fn membership(rule: &Rule) -> &[u16] {
    &rule[3..3 + rule[2] as usize]
}

fn prerequisites(kind: &Kind) -> &[u16] {
    &kind[3..3 + kind[2] as usize]
}

impl<'a> View<'a> {
    /// The state by rows, if it has the right length, facts are bits, counts are in range and what is past them is zero.
    fn of(state: &'a [u16]) -> Option<View<'a>> {
        if state.len() != STATE {
            return None;
        }
        let (facts, rest) = state.split_at(ROW_COUNT);
        let (rows, certificates) = rest.split_at(CERTIFICATE_COUNT - ROW_COUNT);
        if facts.iter().any(|&fact| fact > 1) {
            return None;
        }
        Some(View { facts, rows: counted(rows)?, certificates: counted(certificates)? })
    }

    /// The state by rows, if it is known to be sound.
    fn by_rows(state: &'a [u16]) -> View<'a> {
        let (facts, rest) = state.split_at(ROW_COUNT);
        let (rows, certificates) = rest.split_at(CERTIFICATE_COUNT - ROW_COUNT);
        View { facts, rows: used(rows), certificates: used(certificates) }
    }

    fn ground<'b>(&'b self, kinds: &'b [Kind]) -> Ground<'b> {
        Ground { kinds, facts: self.facts, certificates: self.certificates }
    }

    /// Each certificate and each active row is sound over those before it.
    fn is_sound(&self, tables: &Tables) -> bool {
        let ground = self.ground(tables.kinds);
        let certificate_sound = |(i, certificate): (usize, &Row)| {
            let &[appointee, kind, appointer] = certificate;
            appointee < USERS
                && (kind as usize) < tables.kinds.len()
                && appointer < USERS
                && place_of(&self.certificates[..i], certificate).is_none()
        };
        let row_sound = |(i, &[user, role, rule]): (usize, &Row)| {
            let earlier = &self.rows[..i];
            user < USERS
                && role < ROLES
                && !active(earlier, user, role)
                && tables.rules.get(rule as usize).is_some_and(|rule| rule[0] == role && ground.all_hold(earlier, user, membership(rule)))
        };
        self.certificates.iter().enumerate().all(certificate_sound) && self.rows.iter().enumerate().all(row_sound)
    }
}

/// The rows of a table that stands behind its count, if those past the count are zero.
fn counted(table: &[u16]) -> Option<&[Row]> {
    let (&count, numbers) = table.split_first()?;
    if count as usize > MOST_ROWS {
        return None;
    }
    let (used, rest) = numbers.split_at(3 * count as usize);
    rest.iter().all(|&number| number == 0).then_some(used.as_chunks().0)
}

/// The rows of a table that stands behind its count, which is known to be in range.
fn used(table: &[u16]) -> &[Row] {
    &table[1..].as_chunks().0[..table[0] as usize]
}

/// The user is active in the role.
fn active(rows: &[Row], user: u16, role: u16) -> bool {
    rows.iter().any(|&[of, active, _]| [of, active] == [user, role])
}

/// Where the certificate stands. Number by number: this is quicker than to compare rows of three at once.
fn place_of(certificates: &[Row], &[appointee, kind, appointer]: &Row) -> Option<usize> {
    certificates.iter().position(|&[to, of, by]| to == appointee && of == kind && by == appointer)
}

impl Ground<'_> {
    fn holds(&self, rows: &[Row], user: u16, condition: u16) -> bool {
        match condition {
            ..FIRST_KIND => active(rows, user, condition),
            FIRST_KIND..FIRST_FACT => {
                let kind = condition - FIRST_KIND;
                self.certificates.iter().any(|&[of, stands, _]| [of, stands] == [user, kind])
                    && prerequisites(&self.kinds[kind as usize]).iter().all(|&role| active(rows, user, role))
            }
            _ => self.facts[(condition - FIRST_FACT) as usize] == 1,
        }
    }

    fn all_hold(&self, rows: &[Row], user: u16, conditions: &[u16]) -> bool {
        conditions.iter().all(|&condition| self.holds(rows, user, condition))
    }
}

/// Refuses with 1 unless the policy is sound, and with 2 unless the state is sound under it.
fn judge(policy: Policy, state: &[u16]) -> Result<(), u16> {
    let tables = Tables::of(policy).ok_or(1u16)?;
    let view = View::of(state).ok_or(2u16)?;
    ask(view.is_sound(&tables), 2)
}

/// Refuses with the code unless it is so.
fn ask(so: bool, code: u16) -> Result<(), u16> {
    if so {
        Ok(())
    } else {
        Err(code)
    }
}

pub fn activate(policy: Policy, state: &mut [u16], user: u16, role: u16) -> Outcome {
    judge(policy, state)?;
    unjudged::activate(policy, state, user, role)
}

pub fn appoint(policy: Policy, state: &mut [u16], appointer: u16, appointee: u16, kind: u16) -> Outcome {
    judge(policy, state)?;
    unjudged::appoint(policy, state, appointer, appointee, kind)
}

pub fn revoke(policy: Policy, state: &mut [u16], caller: u16, appointee: u16, kind: u16, appointer: u16) -> Outcome {
    judge(policy, state)?;
    unjudged::revoke(policy, state, caller, appointee, kind, appointer)
}

pub fn withdraw(policy: Policy, state: &mut [u16], appointee: u16, kind: u16, appointer: u16) -> Outcome {
    judge(policy, state)?;
    unjudged::withdraw(policy, state, appointee, kind, appointer)
}

pub fn environment(policy: Policy, state: &mut [u16], fact: u16, value: u16) -> Outcome {
    judge(policy, state)?;
    unjudged::environment(policy, state, fact, value)
}

pub fn logout(policy: Policy, state: &mut [u16], user: u16) -> Outcome {
    judge(policy, state)?;
    unjudged::logout(policy, state, user)
}

pub fn invoke(policy: Policy, state: &[u16], user: u16, privilege: u16) -> Outcome {
    judge(policy, state)?;
    unjudged::invoke(policy, state, user, privilege)
}

pub fn effective(policy: Policy, state: &[u16], user: u16, role: u16, privilege: u16) -> Outcome {
    judge(policy, state)?;
    unjudged::effective(policy, state, user, role, privilege)
}

pub fn chain(policy: Policy, state: &[u16], user: u16, role: u16, list: &mut [u16]) -> Outcome {
    judge(policy, state)?;
    unjudged::chain(policy, state, user, role, list)
}
