//! The reference implementation of this workspace as an engine.

use crate::engine::{Buffers, Engine};
use evaluator::answer::{Answer, Board};
use evaluator::instances::Instance;
use evaluator::machine::{self, Loan};
use paugmeln::instances::SIZES;

/// Keeps the evaluator's own records, from which the list is written.
#[derive(Default)]
pub struct Reference {
    records: Vec<Instance>,
}

impl Reference {
    pub fn new() -> Reference {
        Reference::default()
    }

    /// As many records as the list has.
    fn lend(&mut self, list: &[paugmeln::Instance]) {
        self.records.resize(list.len(), Instance::default());
    }

    /// Writes all records, used or not.
    fn list_records(&self, list: &mut [paugmeln::Instance]) {
        for (place, record) in list.iter_mut().zip(&self.records) {
            *place = as_lent(record);
        }
    }
}

/// A record as the proved library has it: an unused one is empty.
fn as_lent(record: &Instance) -> paugmeln::Instance {
    let Some(function) = record.function() else {
        return paugmeln::Instance::EMPTY;
    };
    let mut sizes = [0; SIZES];
    for (place, size) in sizes.iter_mut().zip(record.sizes()) {
        *place = u32::from(size);
    }
    let estimate = record.estimate();
    paugmeln::Instance {
        function,
        sizes,
        environment: estimate.environment,
        heap: estimate.heap,
        stack: estimate.stack,
    }
}

impl Engine for Reference {
    fn check(&mut self, text: &[u8], board: Board, list: &mut [paugmeln::Instance]) -> Answer {
        self.lend(list);
        let answer = machine::check(text, board, &mut self.records);
        self.list_records(list);
        answer
    }

    fn start(
        &mut self,
        text: &[u8],
        board: Board,
        list: &mut [paugmeln::Instance],
        buffers: &mut Buffers,
    ) -> Answer {
        self.lend(list);
        let answer = machine::start(text, board, &mut self.records, loan(buffers));
        self.list_records(list);
        answer
    }

    fn iterate(&mut self, text: &[u8], board: Board, line: &[u8], buffers: &mut Buffers) -> Answer {
        machine::iterate(text, board, line, loan(buffers))
    }

    fn write(&mut self, text: &[u8], buffer: &mut [u8]) -> Answer {
        machine::write(text, buffer)
    }
}

/// The buffers under the evaluator's name.
pub fn loan(buffers: &mut Buffers) -> Loan<'_> {
    Loan {
        state: &mut buffers.state,
        scratch: &mut buffers.scratch,
        slots: &mut buffers.slots,
    }
}
