//! The three numbers of an estimate (figure 7), which stop at 65,535.

use crate::limits::LARGEST_NUMBER;

/// A sum that stops at 65,535.
pub fn sum(left: u32, right: u32) -> u32 {
    left.saturating_add(right).min(LARGEST_NUMBER)
}

/// Environment (s), heap (t) and stack (u) of an expression.
#[derive(Clone, Copy, Debug, Default, PartialEq, Eq)]
pub struct Estimate {
    pub environment: u32,
    pub heap: u32,
    pub stack: u32,
}

impl Estimate {
    pub const NONE: Estimate = Estimate {
        environment: 0,
        heap: 0,
        stack: 0,
    };

    /// A constant: one cell.
    pub const CELL: Estimate = Estimate {
        environment: 0,
        heap: 1,
        stack: 0,
    };

    /// Both are evaluated, one after the other.
    pub fn then(self, next: Estimate) -> Estimate {
        Estimate {
            environment: self.environment.max(next.environment),
            heap: sum(self.heap, next.heap),
            stack: self.stack.max(next.stack),
        }
    }

    /// One of the two is evaluated.
    pub fn or(self, other: Estimate) -> Estimate {
        Estimate {
            environment: self.environment.max(other.environment),
            heap: self.heap.max(other.heap),
            stack: self.stack.max(other.stack),
        }
    }

    /// With so many slots taken around it.
    pub fn under(self, slots: usize) -> Estimate {
        Estimate {
            environment: sum(self.environment, slots as u32),
            ..self
        }
    }

    /// As the body of a call.
    pub fn called(self) -> Estimate {
        Estimate {
            stack: sum(self.stack, 1),
            ..self
        }
    }
}
