//! The C functions, as the header declares them.

use crate::Answer;

/// A lent table as C takes it.
pub struct Slice {
    pub start: *const u16,
    pub len: usize,
}

impl Slice {
    pub fn of(table: &[u16]) -> Slice {
        Slice { start: table.as_ptr(), len: table.len() }
    }
}

extern "C" {
    pub fn adobethrum_fresh(state: *mut u16, state_len: usize) -> Answer;
    pub fn adobethrum_activate(
        rules: *const u16,
        rules_len: usize,
        kinds: *const u16,
        kinds_len: usize,
        rights: *const u16,
        rights_len: usize,
        state: *mut u16,
        state_len: usize,
        user: u16,
        role: u16,
    ) -> Answer;
    pub fn adobethrum_appoint(
        rules: *const u16,
        rules_len: usize,
        kinds: *const u16,
        kinds_len: usize,
        rights: *const u16,
        rights_len: usize,
        state: *mut u16,
        state_len: usize,
        appointer: u16,
        appointee: u16,
        kind: u16,
    ) -> Answer;
    pub fn adobethrum_revoke(
        rules: *const u16,
        rules_len: usize,
        kinds: *const u16,
        kinds_len: usize,
        rights: *const u16,
        rights_len: usize,
        state: *mut u16,
        state_len: usize,
        caller: u16,
        appointee: u16,
        kind: u16,
        appointer: u16,
    ) -> Answer;
    pub fn adobethrum_withdraw(
        rules: *const u16,
        rules_len: usize,
        kinds: *const u16,
        kinds_len: usize,
        rights: *const u16,
        rights_len: usize,
        state: *mut u16,
        state_len: usize,
        appointee: u16,
        kind: u16,
        appointer: u16,
    ) -> Answer;
    pub fn adobethrum_environment(
        rules: *const u16,
        rules_len: usize,
        kinds: *const u16,
        kinds_len: usize,
        rights: *const u16,
        rights_len: usize,
        state: *mut u16,
        state_len: usize,
        fact: u16,
        value: u16,
    ) -> Answer;
    pub fn adobethrum_logout(
        rules: *const u16,
        rules_len: usize,
        kinds: *const u16,
        kinds_len: usize,
        rights: *const u16,
        rights_len: usize,
        state: *mut u16,
        state_len: usize,
        user: u16,
    ) -> Answer;
    pub fn adobethrum_invoke(
        rules: *const u16,
        rules_len: usize,
        kinds: *const u16,
        kinds_len: usize,
        rights: *const u16,
        rights_len: usize,
        state: *const u16,
        state_len: usize,
        user: u16,
        privilege: u16,
    ) -> Answer;
    pub fn adobethrum_effective(
        rules: *const u16,
        rules_len: usize,
        kinds: *const u16,
        kinds_len: usize,
        rights: *const u16,
        rights_len: usize,
        state: *const u16,
        state_len: usize,
        user: u16,
        role: u16,
        privilege: u16,
    ) -> Answer;
    pub fn adobethrum_chain(
        rules: *const u16,
        rules_len: usize,
        kinds: *const u16,
        kinds_len: usize,
        rights: *const u16,
        rights_len: usize,
        state: *const u16,
        state_len: usize,
        user: u16,
        role: u16,
        list: *mut u16,
        list_len: usize,
    ) -> Answer;
}
