//! What the engine's calls cost, side by side with two unverified engines; README.md says how to run it.

#[cfg(test)]
mod agree;
mod archive;
mod call;
mod case;
mod cases;
mod indexed;
mod place;
mod plain;
mod process;
mod programs;
mod scene;
mod table;
mod worst;

use call::{Named, JUDGING, NOT_JUDGING};
use case::Measured;
use process::{Programs, NAMES};
use table::{Head, Line};

/// The machine is not always equally quick, so every case is measured in several passes over all of them.
const PASSES: usize = 8;

type Table = (Head, Vec<Line>);

/// What is called in this process: the cases of the sides that judge, and of those that do not.
struct Calls {
    judged: Vec<Measured>,
    unjudged: Vec<Measured>,
}

impl Calls {
    fn new() -> Result<Calls, String> {
        let judged = cases::judged()?.into_iter().map(Measured::judged).collect::<Result<_, _>>()?;
        let unjudged = cases::unjudged()?.into_iter().map(Measured::unjudged).collect::<Result<_, _>>()?;
        Ok(Calls { judged, unjudged })
    }

    fn pass(&mut self) {
        self.judged.iter_mut().chain(&mut self.unjudged).for_each(Measured::pass);
    }

    fn tables(&self) -> [Table; 2] {
        let table = |title, sides: &[Named], cases: &[Measured]| {
            let sides = sides.iter().map(|(name, _)| *name).collect();
            (Head { title, unit: "µs", sides }, cases.iter().map(Measured::line).collect())
        };
        [table("Public calls", JUDGING, &self.judged), table("Calls without judging", NOT_JUDGING, &self.unjudged)]
    }
}

/// What is run as a process: sessions with events, and whole texts.
struct Processes<'a> {
    programs: Programs<'a>,
    sessions: Vec<programs::Session>,
    texts: Vec<worst::Busy>,
}

impl<'a> Processes<'a> {
    fn of(programs: Programs<'a>) -> Result<Processes<'a>, String> {
        let mut sessions = programs::all()?;
        sessions.iter_mut().try_for_each(|session| session.agree(programs))?;
        Ok(Processes { programs, sessions, texts: worst::all()? })
    }

    fn pass(&mut self) -> Result<(), String> {
        self.sessions.iter_mut().try_for_each(|session| session.pass(self.programs))?;
        self.texts.iter_mut().try_for_each(|text| text.pass(self.programs))
    }

    fn tables(&self) -> [Table; 2] {
        let head = |title, unit| Head { title, unit, sides: NAMES[..self.programs.len()].to_vec() };
        let sessions = self.sessions.iter().map(|session| session.line(self.programs)).collect();
        let texts = self.texts.iter().map(|text| text.line(self.programs)).collect();
        [(head("The program's events", "µs"), sessions), (head("Whole texts through the program", "ms"), texts)]
    }
}

fn measured(programs: &[String]) -> Result<Vec<Table>, String> {
    let mut processes = match programs {
        [] => None,
        [_, _] | [_, _, _] => Some(Processes::of(programs)?),
        _ => return Err("usage: bench [--page] [TERMINAL SECOND [TERMINAL_BEFORE]]".to_string()),
    };
    let mut calls = Calls::new()?;
    for _ in 0..PASSES {
        calls.pass();
        processes.iter_mut().try_for_each(Processes::pass)?;
    }
    Ok(calls.tables().into_iter().chain(processes.iter().flat_map(Processes::tables)).collect())
}

fn main() {
    let (options, programs): (Vec<String>, Vec<String>) = std::env::args().skip(1).partition(|word| word == "--page");
    match measured(&programs) {
        Ok(tables) => tables.iter().for_each(|(head, lines)| table::print(head, lines, !options.is_empty())),
        Err(why) => {
            eprintln!("bench: {why}");
            std::process::exit(1);
        }
    }
}
