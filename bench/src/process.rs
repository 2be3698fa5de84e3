//! Texts that a program is run on: what it must write, and the processor time that it takes.
//!
//! Processor time and not wall time, because a run that waits for a core does nothing meanwhile. The programs have one thread and wait
//! for nothing but their input, so on a free core the two differ by what it takes to start and to end a process.

use crate::call::Call;
use crate::scene::Scene;
use std::io::Write;
use std::process::{Command, Stdio};
use std::time::Duration;

/// The programs that are compared, as they come on the command line: ours, the second implementation and, if given, ours of an earlier
/// state.
pub type Programs<'a> = &'a [String];
pub const NAMES: [&str; 3] = ["ours", "second", "before"];

/// What the C library's getrusage fills on x86-64: seconds and microseconds as user and as system, and fourteen counts.
#[repr(C)]
#[derive(Default)]
struct Usage {
    user: [i64; 2],
    system: [i64; 2],
    counts: [i64; 14],
}

extern "C" {
    fn getrusage(who: i32, usage: *mut Usage) -> i32;
}

/// The processor time of all processes that were started here and have ended.
fn time_of_ended() -> Duration {
    const CHILDREN: i32 = -1;
    let mut usage = Usage::default();
    // SAFETY: the pointer is to a struct of the layout that the function fills, and to nothing else.
    let status = unsafe { getrusage(CHILDREN, &mut usage) };
    assert_eq!(status, 0, "getrusage knows the processes that have ended");
    let [user, system] = [usage.user, usage.system].map(|[s, us]| Duration::new(s as u64, us as u32 * 1000));
    user + system
}

/// The processor time of a program on an input, and what it writes.
fn run(program: &str, input: &str) -> Result<(Duration, Vec<u8>), String> {
    let failed = |error| format!("{program}: {error}");
    let before = time_of_ended();
    let mut child = Command::new(program).stdin(Stdio::piped()).stdout(Stdio::piped()).spawn().map_err(failed)?;
    // Both programs read all of their input before they write.
    child.stdin.take().expect("it is piped").write_all(input.as_bytes()).map_err(failed)?;
    let output = child.wait_with_output().map_err(failed)?;
    Ok((time_of_ended() - before, output.stdout))
}

/// A text, what every program must write for it, and how long each run of each program took so far.
pub struct Input {
    pub text: String,
    wanted: String,
    times: [Vec<Duration>; NAMES.len()],
}

impl Input {
    pub fn new(text: String, wanted: String) -> Input {
        Input { text, wanted, times: NAMES.map(|_| Vec::new()) }
    }

    /// A scene's session, and behind it so many times the calls, each with the code and the second number that it must answer.
    pub fn of_events(scene: &Scene, calls: &[(Call, u16, u16)], times: usize) -> Input {
        let records: String = calls.iter().map(|(call, ..)| call.record()).collect();
        let answers: String = calls.iter().map(|(_, code, second)| format!("{code},{second}\r\n")).collect();
        Input::new(scene.records() + &records.repeat(times), scene.answers.clone() + &answers.repeat(times))
    }

    /// One run of one of the programs, which must write what is wanted.
    pub fn run(&mut self, programs: Programs, side: usize) -> Result<(), String> {
        let (time, written) = run(&programs[side], &self.text)?;
        if written != self.wanted.as_bytes() {
            return Err(format!("{} does not write what is wanted", programs[side]));
        }
        self.times[side].push(time);
        Ok(())
    }

    /// The time of a program, in microseconds, such that one run in twenty is quicker: the very best of many is now and then one whose
    /// processor time the kernel has counted short. Of fewer than twenty runs it is the best.
    pub fn time(&self, side: usize) -> f64 {
        let mut times = self.times[side].clone();
        times.sort();
        times[times.len() / 20].as_secs_f64() * 1e6
    }
}

/// The most bytes that the program reads.
const ROOM: usize = 65536;

/// How often there is room for the calls behind the scene's session.
pub fn room(scene: &Scene, calls: &[(Call, u16, u16)]) -> usize {
    let length: usize = calls.iter().map(|(call, ..)| call.record().len()).sum();
    (ROOM - scene.records().len()) / length
}
