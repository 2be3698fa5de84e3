//! Whether a policy is sound: one pass over its numbers, in which what is wrong is gathered and not branched on.

use adobethrum::Policy;

/// Target role, n, m, eight conditions.
pub type Rule = [u16; 11];
/// Appointer role, mode, s, four prerequisite roles.
pub type Kind = [u16; 7];

pub const ROLES: u16 = 256;
pub const PRIVILEGES: u16 = 1024;
pub const FIRST_KIND: u16 = 256;
pub const FIRST_FACT: u16 = 384;
const PAST_FACTS: u16 = 448;

/// A sound policy. The rights stay flat: role, privilege, role, privilege.
pub struct Tables<'a> {
    pub rules: &'a [Rule],
    pub kinds: &'a [Kind],
    pub rights: &'a [u16],
}

impl<'a> Tables<'a> {
    pub fn of(policy: Policy<'a>) -> Option<Tables<'a>> {
        let (rules, []) = policy.rules.as_chunks() else { return None };
        let (kinds, []) = policy.kinds.as_chunks() else { return None };
        let rights = policy.rights;
        let lengths = rules.len() <= 512 && kinds.len() <= 128 && rights.len() <= 2 * 2048 && rights.len().is_multiple_of(2);
        let sound = lengths && rules_fit(rules, kinds.len() as u16) && kinds_fit(kinds) && rights_fit(rights);
        sound.then_some(Tables { rules, kinds, rights })
    }
}

/// For each n, ones in the places past it.
static PAST_N: [[i16; 8]; 9] = {
    let mut masks = [[0; 8]; 9];
    let mut at = 0;
    while at < 72 {
        masks[at / 8][at % 8] = if at % 8 >= at / 8 { -1 } else { 0 };
        at += 1;
    }
    masks
};

/// A condition past n is 0, which is a role; so all eight are asked whether they fit. They are compared as signed numbers, of which the
/// processor compares eight at once; those past 32,767 are then negative.
fn rules_fit(rules: &[Rule], kinds: u16) -> bool {
    let end_of_kinds = (FIRST_KIND + kinds) as i16;
    let facts = FIRST_FACT as i16..PAST_FACTS as i16;
    let mut wrong = [0; 8];
    let mut wrong_head = 0;
    for &[target, n, m, ref conditions @ ..] in rules {
        wrong_head |= target >> 8 | m.saturating_sub(n) | n.saturating_sub(8);
        let past = &PAST_N[n.min(8) as usize];
        let conditions = conditions.map(|condition| condition as i16);
        let wrong_here: [i16; 8] = std::array::from_fn(|i| {
            let fits = (0..end_of_kinds).contains(&conditions[i]) | facts.contains(&conditions[i]);
            -i16::from(!fits) | conditions[i] & past[i]
        });
        wrong = std::array::from_fn(|i| wrong[i] | wrong_here[i]);
    }
    wrong_head == 0 && wrong == [0; 8]
}

/// The four roles are taken as one number of 64 bits, with a mask for what must be zero in it.
fn kinds_fit(kinds: &[Kind]) -> bool {
    const NO_ROLES: u64 = 0xFF00_FF00_FF00_FF00;
    let wrong = kinds.iter().fold(0, |wrong, &[appointer, mode, s, a, b, c, d]| {
        let four = u64::from(a) | u64::from(b) << 16 | u64::from(c) << 32 | u64::from(d) << 48;
        let past = u64::MAX.checked_shl(16 * u32::from(s)).unwrap_or(0);
        let head = appointer >> 8 | mode.saturating_sub(2) | s.saturating_sub(4);
        wrong | four & (NO_ROLES | past) | u64::from(head)
    });
    wrong == 0
}

/// Both limits are powers of two, so all numbers keep them exactly if their bits together do.
fn rights_fit(rights: &[u16]) -> bool {
    let (many, rest) = rights.as_chunks::<16>();
    let mut seen = [0; 16];
    seen[..rest.len()].copy_from_slice(rest);
    for numbers in many {
        seen.iter_mut().zip(numbers).for_each(|(seen, number)| *seen |= number);
    }
    seen.as_chunks().0.iter().all(|&[role, privilege]| role < ROLES && privilege < PRIVILEGES)
}

/// Some role that is asked for has the right. Sixteen rights at a time are compared with the privilege at once.
pub fn some_has_right(rights: &[u16], privilege: u16, is_asked: impl Fn(u16) -> bool) -> bool {
    const NO_ROLE: u16 = u16::MAX;
    let wanted = [NO_ROLE, privilege, NO_ROLE, privilege, NO_ROLE, privilege, NO_ROLE, privilege];
    let has = |&[role, to]: &[u16; 2]| to == privilege && is_asked(role);
    let (many, rest) = rights.as_chunks::<32>();
    let met = |numbers: &&[u16; 32]| {
        let met: [u16; 8] = std::array::from_fn(|i| (0..4).fold(0, |met, row| met | u16::from(numbers[8 * row + i] == wanted[i])));
        met.iter().fold(0, |all, &met| all | met) != 0
    };
    many.iter().filter(met).any(|numbers| numbers.as_chunks().0.iter().any(has)) || rest.as_chunks().0.iter().any(has)
}
