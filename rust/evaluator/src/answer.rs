//! Boards, refusals and answers ("By place" of document 01, with the errors
//! that document 02 adds).

use crate::limits::{BOARD_CALLS, BOARD_CELLS, BOARD_SLOTS};

/// What a board lends: heap cells, environment slots and calls of stack.
#[derive(Clone, Copy, Debug, PartialEq, Eq)]
pub struct Board {
    pub cells: u32,
    pub slots: u32,
    pub calls: u32,
}

impl Board {
    /// The largest board of document 01.
    pub const LARGEST: Board = Board {
        cells: BOARD_CELLS,
        slots: BOARD_SLOTS,
        calls: BOARD_CALLS,
    };

    pub fn within_maximum(&self) -> bool {
        self.cells <= BOARD_CELLS && self.slots <= BOARD_SLOTS && self.calls <= BOARD_CALLS
    }
}

/// The refusals, numbered from 1 in the order of document 01's table; those of
/// document 02 join it.
#[derive(Clone, Copy, Debug, PartialEq, Eq, PartialOrd, Ord)]
pub enum Refusal {
    TextLength = 1,
    Line,
    Kind,
    Bytes,
    Code,
    Index,
    Limit,
    SelfFreeConstructor,
    PlainTypes,
    SizeRange,
    SizesDisagree,
    Condition,
    Measure,
    InstanceCount,
    BoardHeap,
    BoardEnvironment,
    BoardStack,
    Loan,
    InputLine,
    HeapSpent,
    EnvironmentSpent,
    StackSpent,
    ValueTooLarge,
    WriteBuffer,
    ReadsItself,
}

impl Refusal {
    pub fn number(self) -> u32 {
        self as u32
    }
}

/// A refusal with the frame it names; frame 0 where none is named.
#[derive(Clone, Copy, Debug, PartialEq, Eq)]
pub struct Fault {
    pub refusal: Refusal,
    pub frame: usize,
}

impl Refusal {
    pub fn in_frame(self, frame: usize) -> Fault {
        Fault {
            refusal: self,
            frame,
        }
    }
}

/// Heap, environment and stack needed.
#[derive(Clone, Copy, Debug, Default, PartialEq, Eq)]
pub struct Bounds {
    pub heap: u32,
    pub environment: u32,
    pub stack: u32,
}

/// A number (0 where all is well), a frame and three bounds.
#[derive(Clone, Copy, Debug, Default, PartialEq, Eq)]
pub struct Answer {
    pub number: u32,
    pub frame: u32,
    pub bounds: Bounds,
}

impl Answer {
    pub fn accepted(bounds: Bounds) -> Answer {
        Answer {
            number: 0,
            frame: 0,
            bounds,
        }
    }

    /// The bounds accompany a refusal only in 15 to 17.
    pub fn refused(fault: Fault, bounds: Bounds) -> Answer {
        Answer {
            number: fault.refusal.number(),
            frame: fault.frame as u32,
            bounds,
        }
    }
}

impl From<Fault> for Answer {
    fn from(fault: Fault) -> Answer {
        Answer::refused(fault, Bounds::default())
    }
}
