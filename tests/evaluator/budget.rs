//! How the evaluator ends early: with a refusal of document 01, or because it gives up.

/// Why a call ends before its answer.
#[derive(Clone, Copy, Debug, PartialEq, Eq)]
pub enum Stop {
    /// One of the numbers under "When the engine declines".
    Refused(u32),
    /// The evaluator gives up; the text says why. It is no statement about the input.
    Unknown(&'static str),
}

/// The evaluator gave up on an input: nothing may be compared.
#[derive(Clone, Copy, Debug, PartialEq, Eq)]
pub struct Unknown(pub &'static str);

/// The reason that no input can bring unless the evaluator itself is wrong.
const FAULT_REASON: &str = "fault of the evaluator";

pub const FAULT: Stop = Stop::Unknown(FAULT_REASON);

impl Unknown {
    /// Whether the evaluator is wrong, rather than at the end of its budget.
    pub fn is_fault(&self) -> bool {
        self.0 == FAULT_REASON
    }
}

/// A count of steps that may still be taken.
pub struct Budget {
    left: u64,
    reason: &'static str,
}

impl Budget {
    pub fn new(steps: u64, reason: &'static str) -> Budget {
        Budget {
            left: steps,
            reason,
        }
    }

    /// How many of so many steps were taken.
    pub fn spent(&self, of: u64) -> u64 {
        of.saturating_sub(self.left)
    }

    /// Takes steps away; gives up where too few are left.
    pub fn spend(&mut self, steps: u64) -> Result<(), Stop> {
        match self.left.checked_sub(steps) {
            Some(left) => {
                self.left = left;
                Ok(())
            }
            None => Err(Stop::Unknown(self.reason)),
        }
    }
}
