//! What was met, and which groups passed.

use crate::case::{Name, NAMES};
use second::Answer;

const CODES: usize = 13;

/// The codes that each call can answer, in the order of `NAMES`. Chain's 11 is
/// not among them: it says that a role would be written twice, and in a sound
/// state each role rests on earlier rows only, so that a chain never comes back.
/// Any other state is refused with 2 before.
const REACHABLE: [&[usize]; 10] = [
    &[0, 2],
    &[0, 1, 2, 3, 4, 5, 6],
    &[0, 1, 2, 3, 6, 7, 8],
    &[0, 1, 2, 3, 9, 10],
    &[0, 1, 2, 3, 9],
    &[0, 1, 2, 3],
    &[0, 1, 2, 3],
    &[0, 1, 2, 3],
    &[0, 1, 2, 3, 12],
    &[0, 1, 2, 3, 12],
];

#[derive(Default)]
pub struct Counts {
    met: [[u64; CODES]; 10],
    greatest: [u16; 10],
}

impl Counts {
    pub fn add(&mut self, name: Name, answer: Answer) {
        let call = name as usize;
        let met = self.met[call].get_mut(usize::from(answer.code));
        *met.expect("both sides gave a code that the outline does not have") += 1;
        self.greatest[call] = self.greatest[call].max(answer.second);
    }

    pub fn calls(&self) -> u64 {
        self.met.iter().flatten().sum()
    }

    pub fn print(&self) {
        print!("{:12}", "code");
        (0..CODES).for_each(|code| print!("{code:>8}"));
        println!("{:>10}", "greatest");
        for name in NAMES {
            print!("{:12}", name.word());
            self.met[name as usize].iter().for_each(|count| print!("{count:>8}"));
            println!("{:>10}", self.greatest[name as usize]);
        }
        println!("{} calls through each side; greatest: the greatest second number", self.calls());
    }

    /// The pairs that can be met and were not, and those met that cannot be.
    pub fn wrong_pairs(&self) -> Vec<String> {
        let mut wrong = Vec::new();
        for name in NAMES {
            for code in 0..CODES {
                let met = self.met[name as usize][code] > 0;
                if met != REACHABLE[name as usize].contains(&code) {
                    let how = if met { "was met and cannot be" } else { "was never met" };
                    wrong.push(format!("code {code} of {} {how}", name.word()));
                }
            }
        }
        wrong
    }
}

/// The groups that passed and failed so far.
#[derive(Default)]
pub struct Report {
    passed: usize,
    failed: usize,
}

impl Report {
    pub fn group(&mut self, name: &str, passed: bool) {
        println!("{} {name}", if passed { "passed" } else { "FAILED" });
        if passed {
            self.passed += 1;
        } else {
            self.failed += 1;
        }
    }

    /// The last line, and the exit status.
    pub fn end(&self) -> i32 {
        println!("{} passed, {} failed", self.passed, self.failed);
        i32::from(self.failed > 0 || self.passed == 0)
    }
}
