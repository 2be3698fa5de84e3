//! A policy and a state to make calls on, shared by the tests.
#![allow(dead_code)]

use second::{Answer, Call, Tables};

/// The conditions that name a kind and a fact.
pub fn kind(number: u16) -> u16 {
    256 + number
}
pub fn fact(number: u16) -> u16 {
    384 + number
}

/// A code and a second number.
pub type Pair = (u16, u16);

/// What can be asked under a policy: nine calls of the ten.
#[derive(Clone, Copy, Debug)]
pub enum Asked {
    Event(Call),
    Chain { user: u16, role: u16, list: usize },
}

#[derive(Clone, Debug, PartialEq)]
pub struct World {
    pub rules: Vec<u16>,
    pub kinds: Vec<u16>,
    pub rights: Vec<u16>,
    pub state: Vec<u16>,
}

pub fn world() -> World {
    World { rules: vec![], kinds: vec![], rights: vec![], state: vec![0; 1602] }
}

/// A raw state: the facts that are 1, the active rows, the certificates.
pub fn state(facts: &[u16], rows: &[[u16; 3]], certificates: &[[u16; 3]]) -> Vec<u16> {
    let mut raw = vec![0; 1602];
    for &fact in facts {
        raw[fact as usize] = 1;
    }
    raw[64] = rows.len() as u16;
    raw[65..65 + 3 * rows.len()].copy_from_slice(rows.as_flattened());
    raw[833] = certificates.len() as u16;
    raw[834..834 + 3 * certificates.len()].copy_from_slice(certificates.as_flattened());
    raw
}

/// Building the policy, in the order of its rows.
impl World {
    pub fn rule(mut self, target: u16, m: u16, conditions: &[u16]) -> World {
        let mut row = [0; 11];
        row[..3].copy_from_slice(&[target, conditions.len() as u16, m]);
        row[3..3 + conditions.len()].copy_from_slice(conditions);
        self.rules.extend(row);
        self
    }

    pub fn kind(mut self, appointer_role: u16, mode: u16, prerequisites: &[u16]) -> World {
        let mut row = [0; 7];
        row[..3].copy_from_slice(&[appointer_role, mode, prerequisites.len() as u16]);
        row[3..3 + prerequisites.len()].copy_from_slice(prerequisites);
        self.kinds.extend(row);
        self
    }

    pub fn right(mut self, role: u16, privilege: u16) -> World {
        self.rights.extend([role, privilege]);
        self
    }

    pub fn with_state(mut self, state: Vec<u16>) -> World {
        self.state = state;
        self
    }

    /// The same with a right that no sound policy has.
    pub fn malformed(self) -> World {
        self.right(256, 0)
    }

    /// The same with a fact that is neither 0 nor 1.
    pub fn unsound(mut self) -> World {
        self.state[63] = 2;
        self
    }

    pub fn tables(&self) -> Tables<'_> {
        Tables { rules: &self.rules, kinds: &self.kinds, rights: &self.rights }
    }
}

/// Making calls. A refusal must have second 0 and touch nothing; an acceptance
/// must leave a sound state.
impl World {
    fn checked(&mut self, make: impl FnOnce(&Tables, &mut [u16]) -> Answer) -> Pair {
        let mut state = self.state.clone();
        let answer = make(&self.tables(), &mut state);
        if answer.code == 0 {
            let sound = second::invoke(&self.tables(), &state, 0, 0).code;
            assert_eq!(sound, 0, "the state left is sound");
        } else {
            assert_eq!(answer.second, 0, "second number of a refusal");
            assert_eq!(state, self.state, "state after a refusal");
        }
        self.state = state;
        (answer.code, answer.second)
    }

    pub fn ask(&mut self, asked: Asked) -> Pair {
        match asked {
            Asked::Event(call) => self.checked(|t, state| second::call(t, state, call)),
            Asked::Chain { user, role, list } => {
                let mut list = vec![7; list];
                let answer = self.chain(user, role, &mut list);
                assert!(answer.0 == 0 || list.iter().all(|&n| n == 7), "list after a refusal");
                answer
            }
        }
    }

    pub fn activate(&mut self, user: u16, role: u16) -> Pair {
        self.checked(|t, state| second::activate(t, state, user, role))
    }
    pub fn appoint(&mut self, appointer: u16, appointee: u16, kind: u16) -> Pair {
        self.checked(|t, state| second::appoint(t, state, appointer, appointee, kind))
    }
    pub fn revoke(&mut self, caller: u16, appointee: u16, kind: u16, appointer: u16) -> Pair {
        self.checked(|t, state| second::revoke(t, state, caller, appointee, kind, appointer))
    }
    pub fn withdraw(&mut self, appointee: u16, kind: u16, appointer: u16) -> Pair {
        self.checked(|t, state| second::withdraw(t, state, appointee, kind, appointer))
    }
    pub fn environment(&mut self, fact: u16, value: u16) -> Pair {
        self.checked(|t, state| second::environment(t, state, fact, value))
    }
    pub fn logout(&mut self, user: u16) -> Pair {
        self.checked(|t, state| second::logout(t, state, user))
    }
    pub fn invoke(&mut self, user: u16, privilege: u16) -> Pair {
        self.checked(|t, state| second::invoke(t, state, user, privilege))
    }
    pub fn effective(&mut self, user: u16, role: u16, privilege: u16) -> Pair {
        self.checked(|t, state| second::effective(t, state, user, role, privilege))
    }
    pub fn chain(&mut self, user: u16, role: u16, list: &mut [u16]) -> Pair {
        self.checked(|t, state| second::chain(t, state, user, role, list))
    }

    /// The code that any call gives under this policy and state, if it is 1 or
    /// 2, and else 0.
    pub fn health(&self) -> u16 {
        second::invoke(&self.tables(), &self.state, 0, 0).code
    }
}

/// Looking at the raw state.
impl World {
    pub fn rows(&self) -> Vec<[u16; 3]> {
        rows_at(&self.state, 64)
    }
    pub fn certificates(&self) -> Vec<[u16; 3]> {
        rows_at(&self.state, 833)
    }
}

fn rows_at(state: &[u16], count: usize) -> Vec<[u16; 3]> {
    let rows = &state[count + 1..][..3 * state[count] as usize];
    rows.chunks(3).map(|row| [row[0], row[1], row[2]]).collect()
}

/// One record a line, as the outline shows it, into CRLF records.
pub fn records(lines: &[&str]) -> Vec<u8> {
    lines.iter().flat_map(|line| format!("{line}\r\n").into_bytes()).collect()
}

/// The program's output for the records, as text.
pub fn output(lines: &[&str]) -> String {
    text(second::run(&records(lines)))
}

pub fn text(bytes: Vec<u8>) -> String {
    String::from_utf8(bytes).expect("the output is plain text")
}
