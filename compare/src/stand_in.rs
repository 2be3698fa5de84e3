//! A stand-in for the engine: the second implementation with one fault.

use crate::border::RawAnswer;
use crate::case::*;
use crate::pair::second_call;
use second::conditions::Ground;
use second::policy::Policy;
use second::state::{active_roles, ActiveRow, State};
use second::Answer;
use std::slice::{from_raw_parts, from_raw_parts_mut};
use std::sync::atomic::{AtomicUsize, Ordering::Relaxed};

/// The fault that is switched on, by its place among `FAULTS` from 1; 0 is none.
pub static FAULT: AtomicUsize = AtomicUsize::new(0);

#[rustfmt::skip]
pub const FAULTS: [&str; 24] = [
    /*  1 */ "the certificate goes and the roles on it stay",
    /*  2 */ "only the first layer falls",
    /*  3 */ "a held role is tested against all its conditions",
    /*  4 */ "prerequisite roles are asked at grant only",
    /*  5 */ "mode 1 is taken for mode 0",
    /*  6 */ "user 4,096 is taken for user 4,095",
    /*  7 */ "chain writes one number past its list",
    /*  8 */ "a refusal with 6 changes the state",
    /*  9 */ "chain leaves noise behind the chain",
    /* 10 */ "the 256th active row is refused",
    /* 11 */ "appoint asks 6 before 8",
    /* 12 */ "invoke does not read the last right",
    /* 13 */ "a row lost is not cleared past the count",
    /* 14 */ "m past n is not refused",
    /* 15 */ "the condition 448 is taken for 447",
    /* 16 */ "logout takes the user's certificates",
    /* 17 */ "effective follows all conditions",
    /* 18 */ "a state of 1,603 numbers is taken",
    /* 19 */ "a lent table is changed",
    /* 20 */ "a lost role is invented",
    /* 21 */ "a number past the rows is not seen",
    /* 22 */ "513 rules are taken",
    /* 23 */ "a refusal has a second number",
    /* 24 */ "the kind without a row is taken for the last",
];

/// What is lent in a call.
struct Lent<'a> {
    tables: Tables,
    state: &'a mut [u16],
    list: &'a mut [u16],
}

fn answer(event: &Event, lent: &mut Lent) -> Answer {
    let fault = FAULT.load(Relaxed);
    let before = lent.state.to_vec();
    let mut event = event.clone();
    prepare(fault, &mut event, lent);
    let noise = lent.list.to_vec();
    let used = if fault == 18 { lent.state.len().min(STATE) } else { lent.state.len() };
    let mut answer = second_call(&lent.tables, &mut lent.state[..used], &event, lent.list);
    if fault == 9 && answer.code == 0 && event.name == Name::Chain {
        let written = usize::from(answer.second);
        lent.list[written..].copy_from_slice(&noise[written..]);
    }
    spoil(fault, &event, lent, &before, &mut answer);
    answer
}

fn falls(name: Name) -> bool {
    matches!(name, Name::Revoke | Name::Withdraw | Name::Environment)
}

/// The faults in what is read.
fn prepare(fault: usize, event: &mut Event, lent: &mut Lent) {
    let Tables { rules, kinds, rights } = &mut lent.tables;
    let rows = rules.chunks_exact_mut(RULE);
    match fault {
        5 => kinds.chunks_exact_mut(KIND).filter(|row| row[1] == 1).for_each(|row| row[1] = 0),
        6 if event.numbers[0] == 4_096 => event.numbers[0] = 4_095,
        12 if event.name == Name::Invoke => rights.truncate(rights.len().saturating_sub(RIGHT)),
        14 => rows.for_each(|row| row[2] = row[2].min(row[1])),
        15 => rows.flat_map(|row| &mut row[3..]).filter(|n| **n == 448).for_each(|n| *n = 447),
        17 if event.name == Name::Effective => rows.for_each(|row| row[2] = row[1]),
        21 if lent.state.len() == STATE && lent.state[ROW_COUNT] < 256 => {
            lent.state[CERTIFICATE_COUNT - 1] = 0;
        }
        22 => rules.truncate(if rules.len() == 513 * RULE { 512 * RULE } else { rules.len() }),
        24 => {
            let count = (kinds.len() / KIND) as u16;
            let kind = event.name.kind_at().map(|at| &mut event.numbers[at]);
            kind.into_iter().filter(|kind| **kind == count).for_each(|kind| {
                *kind = kind.saturating_sub(1);
            });
        }
        _ => {}
    }
}

/// The faults in what is written and answered.
fn spoil(fault: usize, event: &Event, lent: &mut Lent, before: &[u16], answer: &mut Answer) {
    let (code, name) = (answer.code, event.name);
    match fault {
        1..=4 if code == 0 && falls(name) => {
            answer.second = left_over(fault, &lent.tables, lent.state, before);
        }
        8 if code == 6 => lent.state[0] ^= 1,
        10 if code == 0 && name == Name::Activate && lent.state[ROW_COUNT] == 256 => {
            lent.state.copy_from_slice(before);
            *answer = Answer { code: 6, second: 0 };
        }
        11 if code == 8 && before[CERTIFICATE_COUNT] == 256 => answer.code = 6,
        13 if code == 0 && before.len() == STATE && lent.state[ROW_COUNT] < before[ROW_COUNT] => {
            let first = ROW_COUNT + 1 + 3 * usize::from(lent.state[ROW_COUNT]);
            lent.state[first..first + 3].copy_from_slice(&before[first..first + 3]);
        }
        16 if code == 0 && name == Name::Logout => {
            let mut state = State::read(lent.state).expect("an accepted state");
            state.certificates.retain(|row| row.appointee != event.numbers[0]);
            state.write(lent.state);
        }
        20 if code == 0 && name == Name::Environment => answer.second = answer.second.max(1),
        23 if code == 5 => answer.second = 1,
        _ => {}
    }
}

/// Lets the wrong rows fall, and gives how many.
fn left_over(fault: usize, tables: &Tables, raw: &mut [u16], before: &[u16]) -> u16 {
    let Tables { rules, kinds, rights } = tables;
    let mut policy = Policy::read(&second::Tables { rules, kinds, rights }).expect("accepted");
    let mut state = State::read(raw).expect("accepted");
    let rows = State::read(before).expect("accepted").rows;
    match fault {
        3 => policy.rules.iter_mut().for_each(|rule| rule.membership_count = rule.conditions.len()),
        4 => policy.kinds.iter_mut().for_each(|kind| kind.prerequisites.clear()),
        _ => {}
    }
    let layers = [usize::MAX, 0, 1, usize::MAX, usize::MAX][fault];
    let mut left = rows.clone();
    for _ in 0..layers {
        let active = active_roles(&left);
        let ground = Ground::of(&policy, &state);
        let fewer: Vec<ActiveRow> =
            left.iter().copied().filter(|row| ground.supports(row, &active)).collect();
        if fewer.len() == left.len() {
            break;
        }
        left = fewer;
    }
    state.rows = left;
    state.write(raw);
    (rows.len() - state.rows.len()) as u16
}

type In = *const u16;
type Out = *mut u16;

/// Makes slices of what was lent, and does the faults outside them.
unsafe fn given(
    name: Name,
    numbers: &[u16],
    t: [(In, usize); 3],
    s: (Out, usize),
    l: (Out, usize),
) -> RawAnswer {
    let [rules, kinds, rights] = t.map(|(at, count)| from_raw_parts(at, count).to_vec());
    let mut lent = Lent {
        tables: Tables { rules, kinds, rights },
        state: from_raw_parts_mut(s.0, s.1),
        list: from_raw_parts_mut(l.0, l.1),
    };
    let answer = answer(&Event::new(name, numbers), &mut lent);
    let fault = FAULT.load(Relaxed);
    if fault == 7 && name == Name::Chain && answer.code == 0 {
        *l.0.add(l.1) = 7;
    }
    if fault == 19 && name == Name::Revoke && answer.code == 0 {
        *t[0].0.cast_mut() ^= 1;
    }
    RawAnswer { code: answer.code, second: answer.second }
}

const NONE: (Out, usize) = (std::ptr::dangling_mut(), 0);
const EMPTY: (In, usize) = (std::ptr::dangling(), 0);

#[no_mangle]
unsafe extern "C" fn adobethrum_fresh(s: Out, sl: usize) -> RawAnswer {
    given(Name::Fresh, &[], [EMPTY; 3], (s, sl), NONE)
}

macro_rules! stand_in {
    ($function:ident, $name:ident, $($number:ident),*) => {
        #[no_mangle]
        #[allow(clippy::too_many_arguments)]
        unsafe extern "C" fn $function(
            r: In, rl: usize, k: In, kl: usize, p: In, pl: usize, s: Out, sl: usize, $($number: u16),*
        ) -> RawAnswer {
            given(Name::$name, &[$($number),*], [(r, rl), (k, kl), (p, pl)], (s, sl), NONE)
        }
    };
}

stand_in!(adobethrum_activate, Activate, a, b);
stand_in!(adobethrum_appoint, Appoint, a, b, c);
stand_in!(adobethrum_revoke, Revoke, a, b, c, d);
stand_in!(adobethrum_withdraw, Withdraw, a, b, c);
stand_in!(adobethrum_environment, Environment, a, b);
stand_in!(adobethrum_logout, Logout, a);
stand_in!(adobethrum_invoke, Invoke, a, b);
stand_in!(adobethrum_effective, Effective, a, b, c);

#[no_mangle]
#[allow(clippy::too_many_arguments)]
unsafe extern "C" fn adobethrum_chain(
    r: In,
    rl: usize,
    k: In,
    kl: usize,
    p: In,
    pl: usize,
    s: Out,
    sl: usize,
    a: u16,
    b: u16,
    l: Out,
    ll: usize,
) -> RawAnswer {
    given(Name::Chain, &[a, b], [(r, rl), (k, kl), (p, pl)], (s, sl), (l, ll))
}
