//! Cases: calls on a state, what they must answer, and what they cost on each side.

use crate::call::{Call, Named, Side, JUDGING, NOT_JUDGING};
use crate::scene::Scene;
use crate::table::Line;
use adobethrum::{Answer, LIST, STATE};
use std::hint::black_box;
use std::time::{Duration, Instant};

/// A batch is at least this long, and in each pass over the cases each side has so many.
const BATCH: Duration = Duration::from_millis(2);
const BATCHES: usize = 8;

/// How each round finds the state that it begins with.
#[derive(Clone, Copy, PartialEq)]
pub enum Again {
    /// The calls leave the state as it was.
    AsItWas,
    /// Each round has a copy of its own, made outside the timed part.
    Copied,
}

#[derive(Clone)]
pub struct Case {
    pub name: String,
    pub tables: String,
    pub scene: Scene,
    /// Each call, and the code and the second number that it must answer.
    pub calls: Vec<(Call, u16, u16)>,
    pub again: Again,
}

impl Case {
    /// The calls come to a code that lies behind the judging of policy and state.
    pub fn is_on_sound_tables(&self) -> bool {
        self.calls.iter().all(|(_, code, _)| ![1, 2].contains(code))
    }

    /// Each side must give the wanted answers, and the same state and list as the first.
    fn agree(&self, sides: &[Named]) -> Result<(), String> {
        let wrong = |what: String| Err(format!("{}, {}: {what}", self.name, self.tables));
        let mut states = vec![self.scene.state.clone(); sides.len()];
        let mut lists = vec![[9; LIST]; sides.len()];
        for &(call, code, second) in &self.calls {
            for (((_, side), state), list) in sides.iter().zip(&mut states).zip(&mut lists) {
                let answer = side(call, self.scene.policy(), state, list);
                if answer != (Answer { code, second }) {
                    return wrong(format!("{call:?} answers {answer:?}, which is not what the case is about"));
                }
            }
            if states[1..].iter().any(|state| *state != states[0]) || lists[1..].iter().any(|list| *list != lists[0]) {
                return wrong(format!("{call:?}: the sides leave different numbers"));
            }
        }
        if self.again == Again::AsItWas && states[0] != self.scene.state {
            return wrong("the calls do not restore the state".to_string());
        }
        Ok(())
    }

    fn round(&self, side: Side, state: &mut [u16], list: &mut [u16]) {
        for &(call, _, _) in &self.calls {
            black_box(side(black_box(call), black_box(self.scene.policy()), black_box(&mut *state), black_box(&mut *list)));
        }
    }

    /// How long so many rounds take.
    fn batch(&self, side: Side, rounds: usize, states: &mut Vec<[u16; STATE]>) -> Duration {
        let first: [u16; STATE] = self.scene.state[..].try_into().expect("a state has 1,602 numbers");
        states.clear();
        states.resize(if self.again == Again::Copied { rounds } else { 1 }, first);
        let mut list = [0; LIST];
        let begun = Instant::now();
        match self.again {
            Again::AsItWas => (0..rounds).for_each(|_| self.round(side, &mut states[0], &mut list)),
            Again::Copied => states.iter_mut().for_each(|state| self.round(side, state, &mut list)),
        }
        let time = begun.elapsed();
        assert!(self.again == Again::Copied || states[0] == first, "each round finds the state that the first one found");
        time
    }

    /// So many rounds that the side's batch is long enough.
    fn rounds(&self, side: Side) -> usize {
        let mut rounds = 1;
        while self.batch(side, rounds, &mut Vec::new()) < BATCH {
            rounds *= 2;
        }
        rounds
    }
}

/// A case that the sides agree on, and of each side the rounds of a batch and the best batch so far.
pub struct Measured {
    case: Case,
    sides: &'static [Named],
    rounds: Vec<usize>,
    best: Vec<Duration>,
}

impl Measured {
    /// The calls of the sides that judge.
    pub fn judged(case: Case) -> Result<Measured, String> {
        case.agree(JUDGING)?;
        Ok(Measured::new(case, JUDGING))
    }

    /// The calls of the sides that do not, and which must do the same. Each call is made by a side that judges first, so that the tables
    /// are known to be sound when the others are given them.
    pub fn unjudged(case: Case) -> Result<Measured, String> {
        if !case.is_on_sound_tables() {
            return Err(format!("{}, {}: not for calls that do not judge", case.name, case.tables));
        }
        case.agree(&[JUDGING, NOT_JUDGING].concat())?;
        Ok(Measured::new(case, NOT_JUDGING))
    }

    fn new(case: Case, sides: &'static [Named]) -> Measured {
        let rounds = sides.iter().map(|&(_, side)| case.rounds(side)).collect();
        Measured { rounds, case, sides, best: vec![Duration::MAX; sides.len()] }
    }

    /// Batches of the sides take turns.
    pub fn pass(&mut self) {
        let mut states = Vec::new();
        for turn in 0..BATCHES * self.sides.len() {
            let at = turn % self.sides.len();
            self.best[at] = self.case.batch(self.sides[at].1, self.rounds[at], &mut states).min(self.best[at]);
        }
    }

    /// What a round costs each side, in microseconds.
    pub fn line(&self) -> Line {
        let times = self.best.iter().zip(&self.rounds).map(|(best, &rounds)| best.as_secs_f64() * 1e6 / rounds as f64).collect();
        Line { what: self.case.name.clone(), tables: self.case.tables.clone(), times }
    }
}
