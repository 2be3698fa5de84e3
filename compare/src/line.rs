//! A case as one line that can be given back, and as records of the program.

use crate::case::*;
use std::fmt::Write;

/// `calls guard:G rules:.. kinds:.. rights:.. state:.. activate:1,2 ..`, where
/// `0*5` is five zeros, and a chain's list stands after a slash.
pub fn write(test: &str, case: &Case) -> String {
    let mut line = format!("{test} guard:{}", case.guard);
    let parts = [
        ("rules", &case.tables.rules),
        ("kinds", &case.tables.kinds),
        ("rights", &case.tables.rights),
        ("state", &case.state),
    ];
    for (name, numbers) in parts {
        write!(line, " {name}:{}", packed(numbers)).unwrap();
    }
    for event in &case.events {
        write!(line, " {}:{}", event.name.word(), packed(event.given())).unwrap();
        if event.name == Name::Chain {
            write!(line, "/{}", packed(&event.list)).unwrap();
        }
    }
    line
}

fn packed(numbers: &[u16]) -> String {
    let runs = numbers.chunk_by(|a, b| a == b).map(|run| match run.len() {
        1 => run[0].to_string(),
        length => format!("{}*{length}", run[0]),
    });
    runs.collect::<Vec<_>>().join(",")
}

/// The test's name and the case that a line spells.
pub fn read(line: &str) -> Result<(String, Case), String> {
    let mut words = line.split_whitespace();
    let test = words.next().ok_or("an empty line")?.to_string();
    let mut case =
        Case { guard: 0, tables: Tables::default(), state: Vec::new(), events: Vec::new() };
    for word in words {
        let (name, rest) = word.split_once(':').ok_or(format!("no colon in {word}"))?;
        match name {
            "guard" => case.guard = unpacked(rest)?.first().copied().unwrap_or(0),
            "rules" => case.tables.rules = unpacked(rest)?,
            "kinds" => case.tables.kinds = unpacked(rest)?,
            "rights" => case.tables.rights = unpacked(rest)?,
            "state" => case.state = unpacked(rest)?,
            _ => case.events.push(read_event(name, rest)?),
        }
    }
    Ok((test, case))
}

fn read_event(word: &str, rest: &str) -> Result<Event, String> {
    let name = NAMES.into_iter().find(|name| name.word() == word);
    let name = name.ok_or(format!("no call {word}"))?;
    let (numbers, list) = rest.split_once('/').unwrap_or((rest, ""));
    let numbers = unpacked(numbers)?;
    if numbers.len() != name.count() {
        return Err(format!("{word} takes {} numbers", name.count()));
    }
    let mut event = Event::new(name, &numbers);
    event.list = unpacked(list)?;
    Ok(event)
}

fn unpacked(text: &str) -> Result<Vec<u16>, String> {
    let mut numbers = Vec::new();
    for part in text.split(',').filter(|part| !part.is_empty()) {
        let (number, times) = part.split_once('*').unwrap_or((part, "1"));
        let number: u16 = number.parse().map_err(|_| format!("no number: {part}"))?;
        let times: usize = times.parse().map_err(|_| format!("no number: {part}"))?;
        numbers.extend(std::iter::repeat_n(number, times));
    }
    Ok(numbers)
}

/// The case as a session of the program, if it can be written so: it begins
/// with a fresh state, each row is one that a record spells, and neither fresh
/// nor chain is called.
pub fn records(case: &Case) -> Option<Vec<String>> {
    if case.state != [0; STATE] {
        return None;
    }
    let mut lines = rows("rule", &case.tables.rules, RULE, MOST_RULES)?;
    lines.extend(rows("kind", &case.tables.kinds, KIND, MOST_KINDS)?);
    lines.extend(rows("right", &case.tables.rights, RIGHT, MOST_RIGHTS)?);
    for event in &case.events {
        if matches!(event.name, Name::Fresh | Name::Chain) {
            return None;
        }
        lines.push(record(event.name.word(), event.given()));
    }
    Some(lines)
}

pub fn record(word: &str, numbers: &[u16]) -> String {
    numbers.iter().fold(word.to_string(), |text, number| format!("{text},{number}"))
}

fn rows(word: &str, table: &[u16], width: usize, most: usize) -> Option<Vec<String>> {
    let whole = table.len().is_multiple_of(width) && table.len() <= width * most;
    let rows = table.chunks_exact(width);
    whole.then(|| rows.map(|row| row_record(word, row)).collect()).flatten()
}

/// One row of a table as a record: of a rule n, of a kind s is the count of the
/// fields, so the numbers past it must be zero.
fn row_record(word: &str, row: &[u16]) -> Option<String> {
    let (opening, count, listed) = match word {
        "rule" => ([row[0], row[2]], row[1], &row[3..]),
        "kind" => ([row[0], row[1]], row[2], &row[3..]),
        _ => ([row[0], row[1]], 0, &row[2..]),
    };
    let (listed, past) = listed.split_at_checked(usize::from(count))?;
    let fits = past.iter().all(|&number| number == 0);
    fits.then(|| record(word, &[&opening, listed].concat()))
}
