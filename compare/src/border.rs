//! The engine through its C functions, on numbers that lie between guards.

use crate::case::{Event, Name, Tables};
use second::Answer;

#[repr(C)]
#[derive(Clone, Copy)]
pub struct RawAnswer {
    pub code: u16,
    pub second: u16,
}

type Lent = *const u16;
type Changed = *mut u16;
type Len = usize;

#[rustfmt::skip]
extern "C" {
    fn adobethrum_fresh(s: Changed, sl: Len) -> RawAnswer;
    fn adobethrum_activate(r: Lent, rl: Len, k: Lent, kl: Len, p: Lent, pl: Len, s: Changed, sl: Len, user: u16, role: u16) -> RawAnswer;
    fn adobethrum_appoint(r: Lent, rl: Len, k: Lent, kl: Len, p: Lent, pl: Len, s: Changed, sl: Len, appointer: u16, appointee: u16, kind: u16) -> RawAnswer;
    fn adobethrum_revoke(r: Lent, rl: Len, k: Lent, kl: Len, p: Lent, pl: Len, s: Changed, sl: Len, caller: u16, appointee: u16, kind: u16, appointer: u16) -> RawAnswer;
    fn adobethrum_withdraw(r: Lent, rl: Len, k: Lent, kl: Len, p: Lent, pl: Len, s: Changed, sl: Len, appointee: u16, kind: u16, appointer: u16) -> RawAnswer;
    fn adobethrum_environment(r: Lent, rl: Len, k: Lent, kl: Len, p: Lent, pl: Len, s: Changed, sl: Len, fact: u16, value: u16) -> RawAnswer;
    fn adobethrum_logout(r: Lent, rl: Len, k: Lent, kl: Len, p: Lent, pl: Len, s: Changed, sl: Len, user: u16) -> RawAnswer;
    fn adobethrum_invoke(r: Lent, rl: Len, k: Lent, kl: Len, p: Lent, pl: Len, s: Lent, sl: Len, user: u16, privilege: u16) -> RawAnswer;
    fn adobethrum_effective(r: Lent, rl: Len, k: Lent, kl: Len, p: Lent, pl: Len, s: Lent, sl: Len, user: u16, role: u16, privilege: u16) -> RawAnswer;
    fn adobethrum_chain(r: Lent, rl: Len, k: Lent, kl: Len, p: Lent, pl: Len, s: Lent, sl: Len, user: u16, role: u16, list: Changed, ll: Len) -> RawAnswer;
}

const GUARDS: usize = 48;

/// Numbers with guards before and after them.
pub struct Guarded {
    numbers: Vec<u16>,
    guard: u16,
}

impl Guarded {
    pub fn new(lent: &[u16], guard: u16) -> Guarded {
        let mut numbers = vec![guard; lent.len() + 2 * GUARDS];
        numbers[GUARDS..GUARDS + lent.len()].copy_from_slice(lent);
        Guarded { numbers, guard }
    }

    fn len(&self) -> usize {
        self.numbers.len() - 2 * GUARDS
    }

    pub fn lent(&self) -> &[u16] {
        &self.numbers[GUARDS..GUARDS + self.len()]
    }

    /// Points into the whole, so that a call that writes outside what it is lent
    /// meets the guards.
    fn pointer(&mut self) -> *mut u16 {
        self.numbers.as_mut_ptr().wrapping_add(GUARDS)
    }

    pub fn is_intact(&self) -> bool {
        let (before, rest) = self.numbers.split_at(GUARDS);
        let after = &rest[self.len()..];
        before.iter().chain(after).all(|&number| number == self.guard)
    }
}

/// What is lent to the engine: it lies where it is from call to call.
pub struct Border {
    pub rules: Guarded,
    pub kinds: Guarded,
    pub rights: Guarded,
    pub state: Guarded,
    pub list: Guarded,
}

impl Border {
    pub fn new(tables: &Tables, state: &[u16], guard: u16) -> Border {
        Border {
            rules: Guarded::new(&tables.rules, guard),
            kinds: Guarded::new(&tables.kinds, guard),
            rights: Guarded::new(&tables.rights, guard),
            state: Guarded::new(state, guard),
            list: Guarded::new(&[], guard),
        }
    }

    pub fn call(&mut self, event: &Event) -> Answer {
        if event.list.len() + self.list.len() > 0 {
            self.list = Guarded::new(&event.list, self.list.guard);
        }
        let raw = self.raw_call(event);
        Answer { code: raw.code, second: raw.second }
    }

    fn raw_call(&mut self, event: &Event) -> RawAnswer {
        let (r, rl) = (self.rules.pointer(), self.rules.len());
        let (k, kl) = (self.kinds.pointer(), self.kinds.len());
        let (p, pl) = (self.rights.pointer(), self.rights.len());
        let (s, sl) = (self.state.pointer(), self.state.len());
        let (l, ll) = (self.list.pointer(), self.list.len());
        let [a, b, c, d] = event.numbers;
        // Each pointer is to as many numbers as are said, and to no others' memory.
        unsafe {
            match event.name {
                Name::Fresh => adobethrum_fresh(s, sl),
                Name::Activate => adobethrum_activate(r, rl, k, kl, p, pl, s, sl, a, b),
                Name::Appoint => adobethrum_appoint(r, rl, k, kl, p, pl, s, sl, a, b, c),
                Name::Revoke => adobethrum_revoke(r, rl, k, kl, p, pl, s, sl, a, b, c, d),
                Name::Withdraw => adobethrum_withdraw(r, rl, k, kl, p, pl, s, sl, a, b, c),
                Name::Environment => adobethrum_environment(r, rl, k, kl, p, pl, s, sl, a, b),
                Name::Logout => adobethrum_logout(r, rl, k, kl, p, pl, s, sl, a),
                Name::Invoke => adobethrum_invoke(r, rl, k, kl, p, pl, s, sl, a, b),
                Name::Effective => adobethrum_effective(r, rl, k, kl, p, pl, s, sl, a, b, c),
                Name::Chain => adobethrum_chain(r, rl, k, kl, p, pl, s, sl, a, b, l, ll),
            }
        }
    }
}
