//! What a number may be, and how many rows a table may have.

pub type User = u16;
pub type Role = u16;
pub type Privilege = u16;
pub type Fact = u16;
/// A kind's row in the kinds table, from 0.
pub type KindNumber = u16;
/// "The rule's number is its row, from 0."
pub type RuleNumber = u16;

/// "Rules, at most 512 rows of 11"
pub const MOST_RULES: usize = 512;
pub const RULE_WIDTH: usize = 11;

/// "Kinds, at most 128 rows of 7"
pub const MOST_KINDS: usize = 128;
pub const KIND_WIDTH: usize = 7;

/// "Rights, at most 2,048 rows of 2"
pub const MOST_RIGHTS: usize = 2_048;
pub const RIGHT_WIDTH: usize = 2;

/// "m ≤ n ≤ 8"
pub const MOST_CONDITIONS: usize = 8;

/// "s ≤ 4"
pub const MOST_PREREQUISITES: usize = 4;

/// "64 facts"
pub const FACTS: usize = 64;

/// "a count up to 256 and 256 active rows"
pub const MOST_ACTIVE_ROWS: usize = 256;

/// "a count up to 256 and 256 certificate rows"
pub const MOST_CERTIFICATES: usize = 256;

/// "(user, role, rule)" and "(appointee, kind, appointer)"
pub const STATE_ROW_WIDTH: usize = 3;

/// Where a count and its 256 rows end.
pub const STATE_TABLE_LENGTH: usize = 1 + 256 * STATE_ROW_WIDTH;

/// "The state is exactly 1,602 numbers"
pub const STATE_LENGTH: usize = 1_602;

/// "a lent list of 256 numbers"
pub const CHAIN_LENGTH: usize = 256;

/// "reads RFC 4180 records from standard input, at most 65,536 bytes"
pub const MOST_INPUT_BYTES: usize = 65_536;

/// "Users 0 to 4,095"
pub fn is_user(number: u16) -> bool {
    number <= 4_095
}

/// "roles 0 to 255"
pub fn is_role(number: u16) -> bool {
    number <= 255
}

/// "privileges 0 to 1,023"
pub fn is_privilege(number: u16) -> bool {
    number <= 1_023
}

/// "environment facts 0 to 63"
pub fn is_fact(number: u16) -> bool {
    number <= 63
}

/// "64 facts, each 0 or 1"; "Environment (fact, value 0 or 1)"
pub fn is_fact_value(number: u16) -> bool {
    number <= 1
}
