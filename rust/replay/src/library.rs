//! The proved library as an engine.

use crate::engine::{Buffers, Engine};
use evaluator::answer::{Answer, Board, Bounds};
use paugmeln::{Instance, Loan, Sizes};

pub struct Library;

impl Engine for Library {
    fn check(&mut self, text: &[u8], board: Board, list: &mut [Instance]) -> Answer {
        answer(paugmeln::check(text, sizes(board), list))
    }

    fn start(
        &mut self,
        text: &[u8],
        board: Board,
        list: &mut [Instance],
        buffers: &mut Buffers,
    ) -> Answer {
        answer(paugmeln::start(text, sizes(board), list, loan(buffers)))
    }

    fn iterate(&mut self, text: &[u8], board: Board, line: &[u8], buffers: &mut Buffers) -> Answer {
        answer(paugmeln::iterate(text, sizes(board), line, loan(buffers)))
    }

    fn write(&mut self, text: &[u8], buffer: &mut [u8]) -> Answer {
        answer(paugmeln::write(text, buffer))
    }
}

/// A board under the library's name.
pub fn sizes(board: Board) -> Sizes {
    Sizes {
        cells: board.cells,
        slots: board.slots,
        calls: board.calls,
    }
}

/// An answer of the library as the Rust evaluator has it.
pub fn answer(of: paugmeln::Answer) -> Answer {
    Answer {
        number: of.number,
        frame: of.frame,
        bounds: Bounds {
            heap: of.heap,
            environment: of.environment,
            stack: of.stack,
        },
    }
}

/// The buffers under the library's name.
pub fn loan(buffers: &mut Buffers) -> Loan<'_> {
    Loan {
        state: &mut buffers.state,
        scratch: &mut buffers.scratch,
        slots: &mut buffers.slots,
    }
}
