//! Cuts a failing case down: whatever can go while it still fails, goes.

use crate::case::*;
use crate::pair::{second_call, Test};
use std::time::{Duration, Instant};

const PATIENCE: Duration = Duration::from_secs(10);

struct Shrinker {
    test: Test,
    case: Case,
    until: Instant,
}

pub fn shrink(test: Test, case: &Case) -> Case {
    let until = Instant::now() + PATIENCE;
    let mut shrinker = Shrinker { test, case: case.clone(), until };
    shrinker.try_case(changes_only(case));
    loop {
        let before = shrinker.case.clone();
        shrinker.round();
        if shrinker.case == before || Instant::now() > until {
            return shrinker.case;
        }
    }
}

impl Shrinker {
    /// Keeps the smaller case if it still fails.
    fn try_case(&mut self, smaller: Case) -> bool {
        let fails = smaller != self.case && (self.test)(&smaller).is_some();
        if fails {
            self.case = smaller;
        }
        fails
    }

    fn round(&mut self) {
        if let Some((at, _)) = (self.test)(&self.case) {
            let mut shorter = self.case.clone();
            shorter.events.truncate(at + 1);
            self.try_case(shorter);
        }
        self.cut(
            |case| case.tables.rights.len() / RIGHT,
            |case, from, to| {
                drop(case.tables.rights.drain(RIGHT * from..RIGHT * to));
            },
        );
        self.cut(|case| case.events.len(), |case, from, to| drop(case.events.drain(from..to)));
        self.cut(|case| case.tables.rule_count(), cut_rules);
        self.cut(|case| case.tables.kind_count(), cut_kinds);
        self.cut(
            |case| rows_after(&case.state, ROW_COUNT).len(),
            |case, from, to| {
                cut_rows(&mut case.state, ROW_COUNT, from, to);
            },
        );
        self.cut(
            |case| rows_after(&case.state, CERTIFICATE_COUNT).len(),
            |case, from, to| {
                cut_rows(&mut case.state, CERTIFICATE_COUNT, from, to);
            },
        );
        self.cut(|case| case.tables.rule_count() * 8, cut_conditions);
        self.cut(|case| case.tables.kind_count() * 4, cut_prerequisites);
        self.cut(|case| case.state.len(), |case, from, to| case.state[from..to].fill(0));
        self.cut(
            |case| case.events.len(),
            |case, from, to| {
                case.events[from..to].iter_mut().for_each(|event| event.list.fill(0));
            },
        );
        self.smaller_numbers();
    }

    /// Cuts stretches of a part of the case, long ones first, from the end.
    fn cut(&mut self, length: fn(&Case) -> usize, without: fn(&mut Case, usize, usize)) {
        let mut stretch = length(&self.case).next_power_of_two();
        while stretch > 0 {
            let mut to = length(&self.case);
            while to > 0 && Instant::now() < self.until {
                let from = to.saturating_sub(stretch);
                let mut smaller = self.case.clone();
                without(&mut smaller, from, to);
                self.try_case(smaller);
                to = from.min(length(&self.case));
            }
            stretch /= 2;
        }
    }

    /// Numbers of the events become 0 or 1 where that is enough.
    fn smaller_numbers(&mut self) {
        for event in 0..self.case.events.len() {
            for at in 0..self.case.events[event].name.count() {
                for number in 0..2 {
                    let mut smaller = self.case.clone();
                    let place = &mut smaller.events[event].numbers[at];
                    if *place <= number || Instant::now() > self.until {
                        break;
                    }
                    *place = number;
                    if self.try_case(smaller) {
                        break;
                    }
                }
            }
        }
    }
}

/// The case without the events, but for the last, that change nothing.
fn changes_only(case: &Case) -> Case {
    let mut state = case.state.clone();
    let mut shorter = Case { events: Vec::new(), ..case.clone() };
    for (index, event) in case.events.iter().enumerate() {
        let before = state.clone();
        second_call(&case.tables, &mut state, event, &mut event.list.clone());
        if state != before || index + 1 == case.events.len() {
            shorter.events.push(event.clone());
        }
    }
    shorter
}

/// The rules of the rows move with them; rows by a rule that goes, go.
fn cut_rules(case: &mut Case, from: usize, to: usize) {
    case.tables.rules.drain(RULE * from..RULE * to);
    for index in (0..rows_after(&case.state, ROW_COUNT).len()).rev() {
        let at = ROW_COUNT + 1 + 3 * index + 2;
        let rule = usize::from(case.state[at]);
        if rule >= to {
            case.state[at] -= (to - from) as u16;
        } else if rule >= from {
            cut_rows(&mut case.state, ROW_COUNT, index, index + 1);
        }
    }
}

/// Conditions, events and certificates keep the kinds that are left.
fn cut_kinds(case: &mut Case, from: usize, to: usize) {
    case.tables.kinds.drain(KIND * from..KIND * to);
    let (first, gone) = (to as u16, (to - from) as u16);
    for row in case.tables.rules.chunks_exact_mut(RULE) {
        let moved =
            row[3..].iter_mut().filter(|number| (FIRST_KIND + first..FIRST_FACT).contains(*number));
        moved.for_each(|number| *number -= gone);
    }
    for event in &mut case.events {
        let kind = event.name.kind_at().map(|at| &mut event.numbers[at]);
        kind.into_iter().filter(|kind| **kind >= first).for_each(|kind| *kind -= gone);
    }
    for index in 0..rows_after(&case.state, CERTIFICATE_COUNT).len() {
        let kind = &mut case.state[CERTIFICATE_COUNT + 1 + 3 * index + 1];
        if *kind >= first {
            *kind -= gone;
        }
    }
}

fn cut_rows(state: &mut [u16], count_at: usize, from: usize, to: usize) {
    let end = end_of_rows(count_at).min(state.len());
    let [from_at, to_at] = [from, to].map(|row| count_at + 1 + 3 * row);
    state.copy_within(to_at..end, from_at);
    state[end - (to_at - from_at)..end].fill(0);
    state[count_at] = state[count_at].saturating_sub((to - from) as u16);
}

/// Conditions by their place among eight for each rule; those past n do not count.
fn cut_conditions(case: &mut Case, from: usize, to: usize) {
    for index in (from..to).rev() {
        let row = &mut case.tables.rules[index / 8 * RULE..][..RULE];
        let at = index % 8;
        if at < usize::from(row[1]) {
            row.copy_within(4 + at.., 3 + at);
            row[RULE - 1] = 0;
            row[1] -= 1;
            row[2] -= u16::from(at < usize::from(row[2]));
        }
    }
}

fn cut_prerequisites(case: &mut Case, from: usize, to: usize) {
    for index in (from..to).rev() {
        let row = &mut case.tables.kinds[index / 4 * KIND..][..KIND];
        let at = index % 4;
        if at < usize::from(row[2]) {
            row.copy_within(4 + at.., 3 + at);
            row[KIND - 1] = 0;
            row[2] -= 1;
        }
    }
}
