//! The codes, and the two numbers that every call answers.

/// "Each answers a code and a second number."
#[derive(Clone, Copy, Debug, PartialEq, Eq)]
pub struct Answer {
    pub code: u16,
    pub second: u16,
}

/// "Codes and their order": each refusal with its code.
#[derive(Clone, Copy, Debug, PartialEq, Eq)]
#[repr(u16)]
pub enum Refusal {
    /// "policy malformed"
    PolicyMalformed = 1,
    /// "state not sound, or wrong length"
    StateNotSound = 2,
    /// "an argument out of range, a kind without a row, a chain list not of 256"
    ArgumentOutOfRange = 3,
    /// "activate: role already active"
    RoleAlreadyActive = 4,
    /// "activate: no rule for the role is satisfied"
    NoRuleSatisfied = 5,
    /// "activate: 256 active rows; appoint: 256 certificates"
    TableFull = 6,
    /// "appoint: appointer not in the appointer role"
    NotInAppointerRole = 7,
    /// "appoint: that certificate stands already"
    CertificateStands = 8,
    /// "revoke, withdraw: no such certificate"
    NoSuchCertificate = 9,
    /// "revoke: mode and caller don't allow it"
    RevocationNotAllowed = 10,
    /// "chain: a role would be written twice"
    RoleWrittenTwice = 11,
    /// "effective, chain: role not active for the user"
    RoleNotActive = 12,
}

impl Refusal {
    /// Passes on if the refusal's ground is absent.
    pub fn unless(self, fine: bool) -> Result<(), Refusal> {
        if fine {
            Ok(())
        } else {
            Err(self)
        }
    }
}

/// "Code 0 is acceptance." A refusal's second number is 0.
impl From<Result<u16, Refusal>> for Answer {
    fn from(outcome: Result<u16, Refusal>) -> Answer {
        match outcome {
            Ok(second) => Answer { code: 0, second },
            Err(refusal) => Answer { code: refusal as u16, second: 0 },
        }
    }
}
