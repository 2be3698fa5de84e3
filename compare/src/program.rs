//! The program beside the second implementation: one process for each text.

use crate::random::Random;
use crate::{stops, texts};
use std::io::Write;
use std::path::{Path, PathBuf};
use std::process::{Command, Stdio};
use std::time::{Duration, Instant};

/// Every session that is kept as a file.
pub fn run_files(program: &Path) -> Result<usize, String> {
    let files = session_files()?;
    for file in &files {
        stops::go_on();
        let text = std::fs::read(file).map_err(|error| format!("{}: {error}", file.display()))?;
        if let Some(what) = differs(program, &text) {
            let name = file.file_name().unwrap_or_default().display();
            return Err(format!("the session {name}: {what}"));
        }
    }
    Ok(files.len())
}

fn session_files() -> Result<Vec<PathBuf>, String> {
    let folder = Path::new(env!("CARGO_MANIFEST_DIR")).join("../sessions");
    let entries = std::fs::read_dir(&folder).map_err(|error| format!("the sessions: {error}"))?;
    let paths = entries.filter_map(|entry| Some(entry.ok()?.path()));
    let mut files: Vec<PathBuf> =
        paths.filter(|path| path.extension().is_some_and(|end| end == "csv")).collect();
    files.sort();
    if files.is_empty() {
        return Err("there are no sessions".to_string());
    }
    Ok(files)
}

/// Random texts.
pub fn run_texts(program: &Path, count: u64, seed: u64, part: u64) -> Result<usize, String> {
    for number in 0..count {
        stops::go_on();
        let text = texts::text(&mut Random::of(seed, part, number));
        if differs(program, &text).is_some() {
            let text = shrink(program, text);
            let what = differs(program, &text).unwrap_or_default();
            return Err(format!("the text \"{}\": {what}", text.escape_ascii()));
        }
    }
    Ok(count as usize)
}

/// What differs, if something does.
fn differs(program: &Path, text: &[u8]) -> Option<String> {
    let written = match written(program, text) {
        Ok(written) => written,
        Err(error) => return Some(format!("the program: {error}")),
    };
    let wanted = second::run(text);
    (written != wanted).then(|| {
        let from = written.iter().zip(&wanted).take_while(|(a, b)| a == b).count();
        let from = written[..from].iter().rposition(|&byte| byte == b'\n').map_or(0, |at| at + 1);
        let excerpt = |bytes: &[u8]| bytes[from..].iter().take(60).copied().collect::<Vec<_>>();
        format!(
            "from byte {from} of the output, the program writes \"{}\" and the second implementation \"{}\"",
            excerpt(&written).escape_ascii(),
            excerpt(&wanted).escape_ascii()
        )
    })
}

/// What the program writes for a text. It may stop reading before the end.
fn written(program: &Path, text: &[u8]) -> std::io::Result<Vec<u8>> {
    let mut child = Command::new(program).stdin(Stdio::piped()).stdout(Stdio::piped()).spawn()?;
    let mut input = child.stdin.take().expect("its input is piped");
    std::thread::scope(|scope| {
        scope.spawn(move || drop(input.write_all(text)));
        let output = child.wait_with_output()?;
        let ended = output.status.code().is_some();
        ended.then_some(output.stdout).ok_or_else(|| std::io::Error::other("stopped by a signal"))
    })
}

/// Cuts the text down while it still fails: whole records, then single bytes.
fn shrink(program: &Path, text: Vec<u8>) -> Vec<u8> {
    let until = Instant::now() + Duration::from_secs(20);
    let records = text.split_inclusive(|&byte| byte == b'\n').map(<[u8]>::to_vec).collect();
    let text = cut(program, records, until).concat();
    let bytes = text.into_iter().map(|byte| vec![byte]).collect();
    cut(program, bytes, until).concat()
}

/// Cuts stretches of the pieces, long ones first, until none can go.
fn cut(program: &Path, mut pieces: Vec<Vec<u8>>, until: Instant) -> Vec<Vec<u8>> {
    loop {
        let before = pieces.len();
        let mut stretch = before.next_power_of_two();
        while stretch > 0 {
            let mut from = 0;
            while from < pieces.len() && Instant::now() < until {
                let mut fewer = pieces.clone();
                fewer.drain(from..pieces.len().min(from + stretch));
                if differs(program, &fewer.concat()).is_some() {
                    pieces = fewer;
                } else {
                    from += stretch;
                }
            }
            stretch /= 2;
        }
        if pieces.len() == before || Instant::now() > until {
            return pieces;
        }
    }
}
