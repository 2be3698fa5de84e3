//! If the engine stops the program or does not come back, the call is printed.

use crate::case::{Case, Event};
use crate::line;
use crate::pair::Pair;
use std::ptr::null_mut;
use std::sync::atomic::{AtomicPtr, Ordering::Relaxed};

extern "C" {
    fn signal(number: i32, handler: usize) -> usize;
    fn alarm(seconds: u32) -> u32;
    fn _exit(status: i32) -> !;
}

static PAIR: AtomicPtr<Pair<'static>> = AtomicPtr::new(null_mut());
static EVENT: AtomicPtr<Event> = AtomicPtr::new(null_mut());

/// Illegal instruction, trap, abort, bus, arithmetic, segment, alarm.
const SIGNALS: [i32; 7] = [4, 5, 6, 7, 8, 11, 14];
const PATIENCE: u32 = 120;

pub fn install() {
    for number in SIGNALS {
        unsafe { signal(number, stopped as *const () as usize) };
    }
}

/// From now on, two minutes may pass until this is called again.
pub fn go_on() {
    unsafe { alarm(PATIENCE) };
}

pub fn before(pair: &Pair, event: &Event) {
    PAIR.store(std::ptr::from_ref(pair).cast_mut().cast(), Relaxed);
    EVENT.store(std::ptr::from_ref(event).cast_mut(), Relaxed);
}

pub fn after() {
    EVENT.store(null_mut(), Relaxed);
}

/// The state beside the pair is the second implementation's: it is as it was
/// before the call.
extern "C" fn stopped(number: i32) {
    let (pair, event) = (PAIR.load(Relaxed), EVENT.load(Relaxed));
    println!("stopped by signal {number}");
    if !event.is_null() {
        let (pair, event) = unsafe { (&*pair, &*event) };
        let case = Case {
            guard: pair.guard,
            tables: pair.tables.clone(),
            state: pair.state.clone(),
            events: vec![event.clone()],
        };
        println!(
            "in a call of the engine; to run it again: --again '{}'",
            line::write("calls", &case)
        );
    }
    println!("0 passed, 1 failed");
    unsafe { _exit(1) }
}
