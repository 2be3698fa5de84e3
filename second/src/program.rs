//! The program: the whole output for a whole input.

use crate::calls::{call, Call};
use crate::numbers::*;
use crate::policy::Tables;
use crate::records::{read_record, PolicyRow, Record};
use crate::refusal::Answer;
use crate::text::{records, Bad};

/// The policy read so far, the state, and whether an event has been met.
struct Program {
    rules: Vec<[u16; RULE_WIDTH]>,
    kinds: Vec<[u16; KIND_WIDTH]>,
    rights: Vec<[u16; RIGHT_WIDTH]>,
    state: [u16; STATE_LENGTH],
    events_begun: bool,
}

/// "writes one record `code,second` for each event"
pub fn run(input: &[u8]) -> Vec<u8> {
    if is_too_long(input) {
        return bad_record(0);
    }
    let mut program = Program::begin();
    let mut output = Vec::new();
    for (number, record) in (1..).zip(records(input)) {
        match read_record(record).and_then(|record| program.take(record)) {
            Ok(Some(answer)) => output.extend(answer_record(answer)),
            Ok(None) => {}
            // "and stop"; "answers to earlier events stand before a `bad` record"
            Err(Bad) => {
                output.extend(bad_record(number));
                break;
            }
        }
    }
    output
}

/// "at most 65,536 bytes"; "Longer input writes `bad,0` only."
fn is_too_long(input: &[u8]) -> bool {
    input.len() > MOST_INPUT_BYTES
}

impl Program {
    /// "It begins with a fresh state"
    fn begin() -> Program {
        Program {
            rules: Vec::new(),
            kinds: Vec::new(),
            rights: Vec::new(),
            state: [0; STATE_LENGTH],
            events_begun: false,
        }
    }

    fn take(&mut self, record: Record) -> Result<Option<Answer>, Bad> {
        match record {
            Record::Policy(row) => self.learn(row).map(|()| None),
            Record::Event(event) => Ok(Some(self.answer(event))),
        }
    }

    fn learn(&mut self, row: PolicyRow) -> Result<(), Bad> {
        self.policy_still_open()?;
        match row {
            PolicyRow::Rule(row) => add_row(&mut self.rules, row, MOST_RULES),
            PolicyRow::Kind(row) => add_row(&mut self.kinds, row, MOST_KINDS),
            PolicyRow::Right(row) => add_row(&mut self.rights, row, MOST_RIGHTS),
        }
    }

    /// "a policy record after an event"
    fn policy_still_open(&self) -> Result<(), Bad> {
        if self.events_begun {
            return Err(Bad);
        }
        Ok(())
    }

    fn answer(&mut self, event: Call) -> Answer {
        self.events_begun = true;
        let tables = Tables {
            rules: self.rules.as_flattened(),
            kinds: self.kinds.as_flattened(),
            rights: self.rights.as_flattened(),
        };
        call(&tables, &mut self.state, event)
    }
}

/// "a row past a table's limit"
fn add_row<Row>(table: &mut Vec<Row>, row: Row, most: usize) -> Result<(), Bad> {
    if table.len() >= most {
        return Err(Bad);
    }
    table.push(row);
    Ok(())
}

fn answer_record(answer: Answer) -> Vec<u8> {
    written_record(format!("{},{}", answer.code, answer.second))
}

/// "`bad,` and the record's number from 1"
fn bad_record(number: usize) -> Vec<u8> {
    written_record(format!("bad,{number}"))
}

/// "Each record written ends in CRLF"
fn written_record(text: String) -> Vec<u8> {
    (text + "\r\n").into_bytes()
}
