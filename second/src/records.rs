//! What a record of the program says.

use crate::calls::Call;
use crate::numbers::*;
use crate::text::{fields, number, Bad};

#[derive(Clone, Copy, Debug, PartialEq, Eq)]
pub enum Record {
    Policy(PolicyRow),
    Event(Call),
}

/// A row of a policy table, as raw numbers.
#[derive(Clone, Copy, Debug, PartialEq, Eq)]
pub enum PolicyRow {
    Rule([u16; RULE_WIDTH]),
    Kind([u16; KIND_WIDTH]),
    Right([u16; RIGHT_WIDTH]),
}

/// A word, then numbers.
pub fn read_record(text: &[u8]) -> Result<Record, Bad> {
    let fields = fields(text)?;
    let (&word, rest) = fields.split_first().ok_or(Bad)?;
    let numbers = rest.iter().map(|&field| number(field)).collect::<Result<Vec<u16>, Bad>>()?;
    let row = policy_row(word, &numbers).map(Record::Policy);
    row.or_else(|| event(word, &numbers).map(Record::Event)).ok_or(Bad)
}

/// "`rule,target,m,conditions` (0 to 8), `kind,appointer role,mode,prerequisites`
/// (0 to 4), `right,role,privilege`"
fn policy_row(word: &[u8], numbers: &[u16]) -> Option<PolicyRow> {
    match (word, numbers) {
        (b"rule", &[target, m, ref conditions @ ..]) if conditions.len() <= 8 => {
            Some(PolicyRow::Rule(row(&[target, conditions.len() as u16, m], conditions)))
        }
        (b"kind", &[appointer_role, mode, ref prerequisites @ ..]) if prerequisites.len() <= 4 => {
            let opening = [appointer_role, mode, prerequisites.len() as u16];
            Some(PolicyRow::Kind(row(&opening, prerequisites)))
        }
        (b"right", &[role, privilege]) => Some(PolicyRow::Right([role, privilege])),
        _ => None,
    }
}

/// "events `activate,user,role`; `appoint,appointer,appointee,kind`;
/// `revoke,caller,appointee,kind,appointer`; `withdraw,appointee,kind,appointer`;
/// `env,fact,value`; `logout,user`; `invoke,user,privilege`;
/// `effective,user,role,privilege`"
fn event(word: &[u8], numbers: &[u16]) -> Option<Call> {
    match (word, numbers) {
        (b"activate", &[user, role]) => Some(Call::Activate { user, role }),
        (b"appoint", &[appointer, appointee, kind]) => {
            Some(Call::Appoint { appointer, appointee, kind })
        }
        (b"revoke", &[caller, appointee, kind, appointer]) => {
            Some(Call::Revoke { caller, appointee, kind, appointer })
        }
        (b"withdraw", &[appointee, kind, appointer]) => {
            Some(Call::Withdraw { appointee, kind, appointer })
        }
        (b"env", &[fact, value]) => Some(Call::Environment { fact, value }),
        (b"logout", &[user]) => Some(Call::Logout { user }),
        (b"invoke", &[user, privilege]) => Some(Call::Invoke { user, privilege }),
        (b"effective", &[user, role, privilege]) => Some(Call::Effective { user, role, privilege }),
        _ => None,
    }
}

/// A table's row: its opening numbers, then the listed ones, then zeros.
fn row<const WIDTH: usize>(opening: &[u16], listed: &[u16]) -> [u16; WIDTH] {
    let mut row = [0; WIDTH];
    for (place, &number) in row.iter_mut().zip(opening.iter().chain(listed)) {
        *place = number;
    }
    row
}
