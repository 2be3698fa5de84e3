//! Compares the engine, through its C functions, with the second implementation.

mod aim;
mod border;
mod case;
mod damage;
mod damaged;
mod groups;
mod line;
mod moves;
mod orders;
mod pair;
mod program;
mod random;
mod report;
mod sessions;
mod shrink;
#[cfg(feature = "stand-in")]
mod stand_in;
mod stops;
#[cfg(feature = "stand-in")]
mod teeth;
mod texts;
mod worlds;

use case::Case;
use pair::Failure;
use report::{Counts, Report};
use std::path::{Path, PathBuf};
use std::time::Instant;

const SEED: u64 = 20_040_601;
const TEXTS: u64 = 1_500;
/// More events than are quickly read.
const LONG: usize = 30;
const LEAST_CALLS: u64 = 1_000_000;
const USAGE: &str = "usage: compare [--seed N] PROGRAM
       compare --first [--share N] [--seed N]
       compare --again LINE
       compare --teeth [--seed N]      (with the feature stand-in)";

#[derive(Default)]
struct Asked {
    seed: Option<u64>,
    first: bool,
    share: Option<u64>,
    again: Option<String>,
    teeth: bool,
    program: Option<PathBuf>,
}

fn main() {
    stops::install();
    let status = match asked() {
        Some(Asked { again: Some(line), .. }) => again(&line),
        Some(Asked { teeth: true, seed, .. }) => bite(seed.unwrap_or(SEED)),
        Some(Asked { first: true, seed, share, program: None, .. }) => {
            up_to_first(seed.unwrap_or(SEED), share.unwrap_or(1))
        }
        Some(Asked { program: Some(program), seed, .. }) => all(&program, seed.unwrap_or(SEED)),
        _ => {
            eprintln!("{USAGE}");
            2
        }
    };
    std::process::exit(status);
}

fn asked() -> Option<Asked> {
    let mut asked = Asked::default();
    let mut arguments = std::env::args().skip(1);
    while let Some(argument) = arguments.next() {
        match argument.as_str() {
            "--seed" => asked.seed = Some(arguments.next()?.parse().ok()?),
            "--first" => asked.first = true,
            "--share" => asked.share = Some(arguments.next()?.parse().ok().filter(|&n| n > 0)?),
            "--again" => asked.again = Some(arguments.next()?),
            "--teeth" => asked.teeth = true,
            _ if argument.starts_with('-') || asked.program.is_some() => return None,
            _ => asked.program = Some(argument.into()),
        }
    }
    Some(asked)
}

fn all(program: &Path, seed: u64) -> i32 {
    println!("seed {seed}");
    let begun = Instant::now();
    let mut report = Report::default();
    let mut counts = Counts::default();
    for (part, group) in (1..).zip(groups::groups(1)) {
        let (before, calls) = (Instant::now(), counts.calls());
        let outcome = (group.run)(seed, part, &mut counts);
        let calls = counts.calls() - calls;
        let name =
            format!("{}: {calls} calls, {:.1} s", group.name, before.elapsed().as_secs_f32());
        report.group(&name, outcome.is_ok());
        if let Err(failure) = outcome {
            show(&failure);
        }
    }
    let files = program::run_files(program);
    text_group(&mut report, "session files through the program", files);
    let texts = program::run_texts(program, TEXTS, seed, 0);
    text_group(&mut report, "random texts through the program", texts);
    counts.print();
    let wrong = counts.wrong_pairs();
    wrong.iter().for_each(|pair| println!("{pair}"));
    report.group("each code of each call that can be met was met", wrong.is_empty());
    report.group("a million calls", counts.calls() >= LEAST_CALLS);
    println!("{:.1} s", begun.elapsed().as_secs_f32());
    report.end()
}

/// The calls without the program, of each group one part in so many, up to the
/// first mismatch. It is told in one line and not cut down.
fn up_to_first(seed: u64, share: u64) -> i32 {
    println!("seed {seed}, one part in {share}");
    let mut counts = Counts::default();
    let mut report = Report::default();
    match groups::first_failure(seed, share, &mut counts) {
        Some((group, failure)) => {
            let call = counts.calls() + 1;
            let what = (failure.test)(&failure.case).map(|(_, what)| what);
            let what = what.unwrap_or("it failed once and then not again".to_string());
            report.group(&format!("{group}, call {call}: {what}"), false);
        }
        None => report.group(&format!("no mismatch in {} calls", counts.calls()), true),
    }
    report.end()
}

fn text_group(report: &mut Report, name: &str, outcome: Result<usize, String>) {
    match outcome {
        Ok(count) => report.group(&format!("{name}: {count}"), true),
        Err(what) => {
            report.group(name, false);
            println!("{what}");
        }
    }
}

/// Cuts the failing case down and prints it. One that stays long is printed as
/// its last event alone too.
fn show(failure: &Failure) {
    let case = show_cut(failure, &failure.case);
    if failure.name == "calls" && case.events.len() > LONG {
        if let Some(alone) = pair::alone(&case) {
            println!("the last event alone:");
            show_cut(failure, &alone);
        }
    }
}

fn show_cut(failure: &Failure, case: &Case) -> Case {
    stops::go_on();
    let case = shrink::shrink(failure.test, case);
    match (failure.test)(&case) {
        Some((at, what)) => println!("event {} of {}: {what}", at + 1, case.events.len()),
        None => println!("it failed once and then not again"),
    }
    if let Some(records) = line::records(&case) {
        println!("as a session:\n{}", records.join("\n"));
    }
    println!("to run it again: --again '{}'", line::write(failure.name, &case));
    case
}

/// Runs a case that was printed.
fn again(line: &str) -> i32 {
    let (name, case) = match line::read(line) {
        Ok(read) => read,
        Err(what) => {
            eprintln!("compare: {what}");
            return 2;
        }
    };
    let test = if name == "orders" { orders::differ } else { pair::calls_differ };
    let found = test(&case);
    if let Some((at, what)) = &found {
        println!("event {} of {}: {what}", at + 1, case.events.len());
    }
    let mut report = Report::default();
    report.group(&name, found.is_none());
    report.end()
}

#[cfg(feature = "stand-in")]
fn bite(seed: u64) -> i32 {
    teeth::run(seed)
}

#[cfg(not(feature = "stand-in"))]
fn bite(_: u64) -> i32 {
    eprintln!("compare: --teeth wants the feature stand-in");
    2
}
