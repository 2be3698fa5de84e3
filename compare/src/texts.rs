//! Texts for the program: sessions as records, damaged here and there.

use crate::case::*;
use crate::line::record;
use crate::moves::{self, Mood};
use crate::pair::second_call;
use crate::random::Random;
use crate::sessions::fresh_state;
use crate::worlds::{world, Size, World};

const MOST_BYTES: usize = 65_536;

pub fn text(random: &mut Random) -> Vec<u8> {
    match random.below(40) {
        0 => long(random),
        1 => many_rows(random),
        2 => scraps(random),
        _ => session(random, Size::Small),
    }
}

/// A session, whole or damaged in up to three places.
fn session(random: &mut Random, size: Size) -> Vec<u8> {
    let world = world(random, size);
    let events = random.between(0, 60);
    let mut records = [policy(random, &world), events_of(random, &world, events)].concat();
    for _ in 0..random.weighted(&[3, 6, 2, 1]) {
        damage_record(random, &mut records);
    }
    let mut text = joined(random, &records);
    for _ in 0..random.weighted(&[6, 2, 1]) {
        damage_bytes(random, &mut text);
    }
    text
}

/// The policy's records, now and then mixed, a few of them malformed.
fn policy(random: &mut Random, world: &World) -> Vec<String> {
    let mut tables = world.tables.clone();
    if random.once_in(8) && !tables.rights.is_empty() {
        let at = random.below(tables.rights.len());
        tables.rights[at] = random.pick(&[255, 256, 1_023, 1_024, 65_535]);
    }
    let case = Case { guard: 0, tables, state: fresh_state(), events: Vec::new() };
    let mut records = crate::line::records(&case).unwrap_or_default();
    if random.once_in(8) {
        records.push(record("rule", &[random.pick(&[255, 256]), random.pick(&[0, 1]), 447]));
    }
    if random.once_in(3) {
        random.shuffle(&mut records);
    }
    records
}

fn events_of(random: &mut Random, world: &World, count: usize) -> Vec<String> {
    let mut state = fresh_state();
    let mut records = Vec::new();
    for index in 0..count {
        let mood = if index * 2 < count { Mood::Build } else { Mood::Mixed };
        let event = moves::event(random, world, &state, mood);
        if !matches!(event.name, Name::Fresh | Name::Chain) {
            second_call(&world.tables, &mut state, &event, &mut []);
            records.push(record(event.name.word(), event.given()));
        }
    }
    records
}

/// The records with CRLF after each, which the last may lack; some fields quoted.
fn joined(random: &mut Random, records: &[String]) -> Vec<u8> {
    let quotes = random.once_in(3);
    let mut text = Vec::new();
    for record in records {
        for (index, field) in record.split(',').enumerate() {
            let quote = if quotes && random.once_in(4) { "\"" } else { "" };
            let comma = if index > 0 { "," } else { "" };
            text.extend(format!("{comma}{quote}{field}{quote}").bytes());
        }
        text.extend(b"\r\n");
    }
    if random.once_in(4) {
        text.truncate(text.len().saturating_sub(2));
    }
    text
}

const WORDS: [&str; 16] = [
    "rule",
    "kind",
    "right",
    "activate",
    "appoint",
    "revoke",
    "withdraw",
    "env",
    "logout",
    "invoke",
    "effective",
    "chain",
    "fresh",
    "Logout",
    "",
    "environment",
];
const FIELDS: [&str; 24] = [
    "",
    "0",
    "1",
    "00",
    "01",
    "65535",
    "65536",
    "65537",
    "99999",
    "4294967296",
    "18446744073709551617",
    "+1",
    "-1",
    " 1",
    "1 ",
    "1.0",
    "0x1",
    "a",
    "\"",
    "\"\"",
    "\"1",
    "1\"",
    "\"1\"",
    "\"01\"",
];

/// One record: a field or the word replaced, a field more or less, a record
/// more, or one at another place.
fn damage_record(random: &mut Random, records: &mut Vec<String>) {
    if records.is_empty() {
        return records.push(random.pick(&["", ",", "logout,1", "rule,1,0"]).to_string());
    }
    let (at, other) = (random.below(records.len()), random.below(records.len()));
    let mut fields: Vec<String> = records[at].split(',').map(String::from).collect();
    let field = random.below(fields.len());
    match random.weighted(&[8, 3, 2, 2, 2, 1]) {
        0 => fields[field] = random.pick(&FIELDS).to_string(),
        1 => fields[0] = random.pick(&WORDS).to_string(),
        2 => fields.insert(field + 1, random.pick(&FIELDS).to_string()),
        3 => drop(fields.remove(field)),
        4 => return records.swap(at, other),
        _ => return records.insert(at, String::new()),
    }
    records[at] = fields.join(",");
}

const BYTES: [&[u8]; 14] = [
    b"\r", b"\n", b"\r\n", b"\n\r", b"\r\r\n", b"\"", b"\"\"", b",", b" ", b"\0", b"\xff", b"0",
    b"\t", b"",
];

/// One place of the text: bytes in between, in place of one, or at the end.
fn damage_bytes(random: &mut Random, text: &mut Vec<u8>) {
    let bytes = random.pick(&BYTES);
    let at = match random.below(4) {
        0 => text.len(),
        1 => line_end(random, text),
        _ => random.below(text.len() + 1),
    };
    let gone = random.below(3).min(text.len() - at);
    text.splice(at..at + gone, bytes.iter().copied());
}

/// The place of some CR, or the beginning.
fn line_end(random: &mut Random, text: &[u8]) -> usize {
    let ends: Vec<usize> = (0..text.len()).filter(|&at| text[at] == b'\r').collect();
    if ends.is_empty() {
        0
    } else {
        random.pick(&ends)
    }
}

/// A text as long as may be, or a little longer or shorter.
fn long(random: &mut Random) -> Vec<u8> {
    let mut text = session(random, Size::Small);
    let length =
        random.pick(&[MOST_BYTES - 1, MOST_BYTES, MOST_BYTES + 1, MOST_BYTES + 2, 70_000, 200_000]);
    match random.below(3) {
        0 => text.resize(length, b'1'),
        1 => {
            text = b"rule,1,0\r\nactivate,1,1".to_vec();
            let tail = b"\r\nlogout,1";
            let room = length.saturating_sub(text.len());
            text.extend(tail.iter().cycle().take(room / tail.len() * tail.len()));
            text.resize(length, b'0');
        }
        _ => text.extend(b"\r\n".iter().cycle().take(length.saturating_sub(text.len()))),
    }
    text
}

/// As many policy records as may be, one less or one more, and two events.
fn many_rows(random: &mut Random) -> Vec<u8> {
    let (row, most) = random.pick(&[
        ("rule,1,0", MOST_RULES),
        ("kind,1,0,255,254", MOST_KINDS),
        ("right,1,1023", MOST_RIGHTS),
    ]);
    let count = most + random.below(3) - 1;
    let mut records = vec![row.to_string(); count];
    records.extend(["activate,1,1", "invoke,1,1023", "appoint,1,4095,127"].map(String::from));
    joined(random, &records)
}

/// Pieces of records put together anyhow.
fn scraps(random: &mut Random) -> Vec<u8> {
    let mut text = Vec::new();
    for _ in 0..random.below(14) {
        match random.below(4) {
            0 => text.extend(random.pick(&WORDS).bytes()),
            1 => text.extend(random.pick(&FIELDS).bytes()),
            2 => text.extend(random.pick(&BYTES)),
            _ => text.extend(random.pick(&[b"," as &[u8], b"\r\n"])),
        }
    }
    text
}
