//! What answers the cases.

use evaluator::answer::{Answer, Board};
use evaluator::limits::{BOARD_CELLS, BOARD_SLOTS, SCRATCH_WORDS};
use paugmeln::instances::SIZES;
use paugmeln::Instance;

/// An implementation of check, start, iterate and write. Every buffer comes from the caller; the list of instances is as the proved
/// library has it.
pub trait Engine {
    fn check(&mut self, text: &[u8], board: Board, list: &mut [Instance]) -> Answer;
    fn start(
        &mut self,
        text: &[u8],
        board: Board,
        list: &mut [Instance],
        buffers: &mut Buffers,
    ) -> Answer;
    fn iterate(&mut self, text: &[u8], board: Board, line: &[u8], buffers: &mut Buffers) -> Answer;
    fn write(&mut self, text: &[u8], buffer: &mut [u8]) -> Answer;
}

/// The buffers a case lends to start and iterate, the list of instances apart.
#[derive(Clone, Debug, PartialEq, Eq)]
pub struct Buffers {
    pub state: Vec<u32>,
    pub scratch: Vec<u32>,
    pub slots: Vec<u32>,
}

/// What scratch and slots hold before a call; it is not looked at.
pub const UNTOUCHED: u32 = 0xA5A5_A5A5;

/// The same for the bytes of a buffer for the strict text.
pub const UNTOUCHED_BYTE: u8 = 0xA5;

/// The same for the records of a list.
pub const UNTOUCHED_RECORD: Instance = filled(UNTOUCHED);

/// A record with the same number everywhere.
pub const fn filled(number: u32) -> Instance {
    Instance {
        function: number,
        sizes: [number; SIZES],
        environment: number,
        heap: number,
        stack: number,
    }
}

impl Buffers {
    /// A state buffer of `words` words, and scratch and slots for a board.
    pub fn new(board: Board, words: Vec<u32>) -> Buffers {
        // A board over its maximum is refused whatever is lent.
        let slots = board.slots.min(BOARD_SLOTS + 1) as usize;
        Buffers {
            state: words,
            scratch: vec![UNTOUCHED; SCRATCH_WORDS],
            slots: vec![UNTOUCHED; slots],
        }
    }

    /// Fills scratch and slots before a call.
    pub fn soil(&mut self) {
        self.scratch.fill(UNTOUCHED);
        self.slots.fill(UNTOUCHED);
    }

    /// Whether scratch and slots are zero in their whole length.
    pub fn are_clean(&self) -> bool {
        self.scratch
            .iter()
            .chain(&self.slots)
            .all(|word| *word == 0)
    }
}

/// The cells for which a state buffer is lent: none over the maximum.
pub fn lendable_cells(board: Board) -> Option<u32> {
    (board.cells <= BOARD_CELLS).then_some(board.cells)
}
