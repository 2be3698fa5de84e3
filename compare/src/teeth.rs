//! Whether the comparison bites: each fault of the stand-in must be found.

use crate::case::*;
use crate::groups::first_failure;
use crate::report::{Counts, Report};
use crate::sessions::fresh_state;
use crate::stand_in::{FAULT, FAULTS};
use crate::{line, orders, shrink};
use std::sync::atomic::Ordering::Relaxed;

/// The tenth part of the comparison must be enough.
const SHARE: u64 = 10;

pub fn run(seed: u64) -> i32 {
    let mut report = Report::default();
    for (number, name) in (1..).zip(FAULTS) {
        FAULT.store(number, Relaxed);
        let mut counts = Counts::default();
        let found = first_failure(seed, SHARE, &mut counts);
        let calls = counts.calls() + u64::from(found.is_some());
        match &found {
            Some((group, failure)) => {
                report.group(&format!("{name}: found after {calls} calls, in {group}"), true);
                crate::show(failure);
            }
            None => report.group(&format!("{name}: not found in {calls} calls"), false),
        }
    }
    FAULT.store(0, Relaxed);
    report.group("a list whose end depends on the order is found", order_is_found());
    report.end()
}

/// A revocation is no withdrawal: whether it is allowed depends on what fell
/// before it. The case is cut down to the two events, and its line read back.
fn order_is_found() -> bool {
    let mut state = fresh_state();
    state[0] = 1;
    state[ROW_COUNT..ROW_COUNT + 4].copy_from_slice(&[1, 5, 0, 0]);
    state[CERTIFICATE_COUNT..CERTIFICATE_COUNT + 4].copy_from_slice(&[1, 6, 0, 5]);
    let case = Case {
        guard: 1,
        tables: Tables {
            rules: vec![0, 1, 1, 384, 0, 0, 0, 0, 0, 0, 0],
            kinds: vec![0, 1, 0, 0, 0, 0, 0],
            rights: vec![0, 0],
        },
        state,
        events: vec![
            Event::new(Name::Logout, &[9]),
            Event::new(Name::Environment, &[0, 0]),
            Event::new(Name::Revoke, &[5, 6, 0, 5]),
        ],
    };
    let cut = shrink::shrink(orders::differ, &case);
    let again = line::read(&line::write("orders", &cut));
    orders::differ(&cut).is_some()
        && cut.events.len() == 2
        && again == Ok(("orders".to_string(), cut))
}
