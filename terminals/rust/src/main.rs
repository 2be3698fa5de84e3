//! The yard's terminal in Rust: from empty tables to the closed job, through the ten calls (docs/HANDBOOK.md).

#![forbid(unsafe_code)]
#![deny(warnings)]

use adobethrum::{activate, appoint, chain, effective, environment, fresh, invoke, logout, revoke, withdraw};
use adobethrum::{Answer, Policy, LIST, STATE};
use std::process::exit;
use Second::*;

const ON_SHIFT: u16 = 0;
const MANAGER: u16 = 1;
const MEMORY: u16 = 2;
const WIPE_CHECK: u16 = 3;
const OPEN_MEMORY: u16 = 20;
const READ_MESSAGES: u16 = 30;
const CAR: u16 = 0;
const IN_THE_BAY: u16 = 0;

/// Where kinds and facts begin in a condition.
const KIND: u16 = 256;
const FACT: u16 = 384;

#[rustfmt::skip]
const RULES: &[u16] = &[
    ON_SHIFT, 0, 0, 0, 0, 0, 0, 0, 0, 0, 0,
    MANAGER, 0, 0, 0, 0, 0, 0, 0, 0, 0, 0,
    MEMORY, 2, 2, ON_SHIFT, KIND + CAR, 0, 0, 0, 0, 0, 0,
    WIPE_CHECK, 2, 2, MEMORY, FACT + IN_THE_BAY, 0, 0, 0, 0, 0, 0,
];
const KINDS: &[u16] = &[MANAGER, 1, 0, 0, 0, 0, 0];
const RIGHTS: &[u16] = &[MEMORY, OPEN_MEMORY, WIPE_CHECK, READ_MESSAGES];
const LENT: Policy = Policy { rules: RULES, kinds: KINDS, rights: RIGHTS };

/// What a technician is told for each code.
const TOLD: [&str; 13] = [
    "Done.",
    "The policy of this terminal is broken. Stop, and call the foreman.",
    "The records of this terminal are broken. Stop, and call the foreman.",
    "There is no such number here. Check the badge.",
    "You hold this role already.",
    "Not now. Ask the manager whether you are appointed.",
    "All places are taken. Call the foreman.",
    "Only a manager may appoint.",
    "This appointment stands already.",
    "There is no such appointment.",
    "You may not end this appointment.",
    "The records of this terminal are broken. Stop, and call the foreman.",
    "You do not hold this role.",
];

/// What the second number of an accepted call is to a technician: nothing, how many roles ended, or yes and no.
enum Second {
    Done,
    Ended,
    Allowed,
}

/// Tells what a call answered, and gives its second number. After broken tables nothing can be relied on: the terminal
/// stops. Any other refusal has changed nothing, and the work goes on.
fn tell(second: Second, what: &str, answer: Answer) -> u16 {
    print!("{what}: {},{}: ", answer.code, answer.second);
    match second {
        Ended if answer.code == 0 => println!("Roles ended: {}.", answer.second),
        Allowed if answer.code == 0 => println!("{}", if answer.second == 1 { "Yes." } else { "No." }),
        _ => println!("{}", TOLD[usize::from(answer.code)]),
    }
    if matches!(answer.code, 1 | 2 | 11) {
        exit(1);
    }
    answer.second
}

fn work(state: &mut [u16]) {
    let mut list = [0; LIST];
    tell(Ended, "the car comes into the bay", environment(LENT, state, IN_THE_BAY, 1));
    tell(Done, "manager 7 logs in", activate(LENT, state, 7, MANAGER));
    tell(Done, "technician 41 logs in", activate(LENT, state, 41, ON_SHIFT));
    tell(Done, "technician 42 logs in", activate(LENT, state, 42, ON_SHIFT));
    tell(Done, "41 asks for the dashboard's memory", activate(LENT, state, 41, MEMORY));
    tell(Done, "41 appoints himself to the car", appoint(LENT, state, 41, 41, CAR));
    tell(Done, "7 appoints 41 to the car", appoint(LENT, state, 7, 41, CAR));
    tell(Done, "7 appoints 41 once more", appoint(LENT, state, 7, 41, CAR));
    tell(Done, "41 asks for the dashboard's memory", activate(LENT, state, 41, MEMORY));
    tell(Done, "41 asks for it once more", activate(LENT, state, 41, MEMORY));
    tell(Done, "41 asks for the wipe check", activate(LENT, state, 41, WIPE_CHECK));
    tell(Allowed, "41 reads the seller's messages", invoke(LENT, state, 41, READ_MESSAGES));
    tell(Allowed, "does his wipe check open the memory", effective(LENT, state, 41, WIPE_CHECK, OPEN_MEMORY));
    tell(Done, "what his wipe check rests on", chain(LENT, state, 41, WIPE_CHECK, &mut list));
    println!("-- roles {}, {}, {}", list[0], list[1], list[2]);
    tell(Allowed, "42 reads the seller's messages", invoke(LENT, state, 42, READ_MESSAGES));
    tell(Allowed, "does her wipe check open the memory", effective(LENT, state, 42, WIPE_CHECK, OPEN_MEMORY));
    tell(Ended, "41 ends his own appointment", revoke(LENT, state, 41, 41, CAR, 7));
    tell(Done, "badge 5000 logs in", activate(LENT, state, 5000, ON_SHIFT));
}

fn close_entry(state: &mut [u16], entry: u16) -> u16 {
    match entry {
        0 => tell(Ended, "the appointment of 41 ends", withdraw(LENT, state, 41, CAR, 7)),
        1 => tell(Ended, "the appointment of 42 ends", withdraw(LENT, state, 42, CAR, 7)),
        2 => tell(Ended, "the car leaves the bay", environment(LENT, state, IN_THE_BAY, 0)),
        _ => tell(Ended, "41 logs out", logout(LENT, state, 41)),
    }
}

/// Runs the closing list from its entry `first` to the end, then the entries before it.
fn close_job(state: &mut [u16], first: u16) -> u16 {
    println!("-- the closing list, from entry {first}");
    let ended = (0..4).map(|i| close_entry(state, (first + i) % 4)).sum();
    println!("-- roles ended in all: {ended}");
    ended
}

fn main() {
    let mut state = [u16::MAX; STATE]; // whatever memory holds: fresh writes every number
    tell(Done, "a fresh state", fresh(&mut state));
    work(&mut state);
    let mut other = state;
    let ended = close_job(&mut state, 0);
    let other_ended = close_job(&mut other, 2);
    let differ = state.iter().zip(&other).filter(|(a, b)| a != b).count();
    println!("-- numbers that differ: {differ} of {STATE}");
    tell(Allowed, "41 reads the seller's messages", invoke(LENT, &state, 41, READ_MESSAGES));
    exit(if differ == 0 && ended == other_ended { 0 } else { 2 });
}
