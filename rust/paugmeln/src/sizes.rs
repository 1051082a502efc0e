//! What a board has, and how long the buffers of a call are for it.

use crate::answer::Bounds;

/// Heap cells, environment slots and calls of stack.
#[derive(Clone, Copy, Debug, PartialEq, Eq)]
pub struct Sizes {
    pub cells: u32,
    pub slots: u32,
    pub calls: u32,
}

/// Characters of a rule file; a longer one is refused with 1.
pub const TEXT_CHARACTERS: usize = 16_384;

/// Channels, document 01's word for inputs and nodes, that a file may have.
pub const CHANNELS: usize = 24;

/// The words of a state before its cells: the cells used, then one a channel.
pub const HEADER_WORDS: usize = 1 + CHANNELS;

/// Fields that a cell has room for.
pub const FIELDS: usize = 4;

/// The words of a cell: tag, content or size, field cells.
pub const CELL_WORDS: usize = 2 + FIELDS;

/// The least that is lent as scratch, in words.
pub const SCRATCH_WORDS: usize = 2_048;

/// The board that has exactly what a file needs.
impl From<Bounds> for Sizes {
    fn from(needed: Bounds) -> Sizes {
        Sizes {
            cells: needed.heap,
            slots: needed.environment,
            calls: needed.stack,
        }
    }
}

impl Sizes {
    /// The largest board; one that has more of anything is refused with 18.
    pub const LARGEST: Sizes = Sizes {
        cells: 2_048,
        slots: 256,
        calls: 64,
    };

    /// The least that is lent as the state, in words.
    pub const fn state_words(self) -> usize {
        HEADER_WORDS + CELL_WORDS * self.cells as usize
    }

    /// The least that is lent as the buffer of slots, in words.
    pub const fn slot_words(self) -> usize {
        self.slots as usize
    }

    /// The same, no part above the largest board's.
    pub(crate) fn at_most_largest(self) -> Sizes {
        let largest = Sizes::LARGEST;
        Sizes {
            cells: self.cells.min(largest.cells),
            slots: self.slots.min(largest.slots),
            calls: self.calls.min(largest.calls),
        }
    }
}
