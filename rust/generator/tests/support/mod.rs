//! What the tests lend, and how they look at what comes back.

#![allow(dead_code)]

pub mod lists;

use evaluator::answer::{Answer, Board, Bounds};
use evaluator::instances::Instance;
use evaluator::limits::{state_words, INSTANCES, SCRATCH_WORDS};
use evaluator::machine::{self, Loan};
use evaluator::state::State;
use evaluator::syntax::File;
use evaluator::value::Tree;
use std::rc::Rc;

/// What buffers hold before a call; it is not looked at.
pub const UNTOUCHED: u32 = 0xDEAD_BEEF;

/// All buffers for one board, each `extra` longer than asked.
#[derive(Clone)]
pub struct Lent {
    pub board: Board,
    pub instances: Vec<Instance>,
    pub state: Vec<u32>,
    pub scratch: Vec<u32>,
    pub slots: Vec<u32>,
}

impl Lent {
    pub fn new(board: Board, extra: usize) -> Lent {
        Lent {
            board,
            instances: vec![Instance::default(); INSTANCES + extra],
            state: vec![UNTOUCHED; state_words(board.cells) + extra],
            scratch: vec![UNTOUCHED; SCRATCH_WORDS + extra],
            slots: vec![UNTOUCHED; board.slots as usize + extra],
        }
    }

    /// The same with a state that holds values, one a channel.
    pub fn holding<'a>(board: Board, channels: impl IntoIterator<Item = &'a Tree>) -> Lent {
        let mut state = State::new(vec![0; state_words(board.cells)]);
        for (channel, tree) in channels.into_iter().enumerate() {
            let cell = state.make_tree(tree).expect("a cell for each part");
            state.set_channel(channel, cell);
        }
        Lent {
            state: state.words().to_vec(),
            ..Lent::new(board, 0)
        }
    }

    pub fn check(&mut self, text: &[u8]) -> Answer {
        machine::check(text, self.board, &mut self.instances)
    }

    pub fn start(&mut self, text: &[u8]) -> Answer {
        let loan = Loan {
            state: &mut self.state,
            scratch: &mut self.scratch,
            slots: &mut self.slots,
        };
        machine::start(text, self.board, &mut self.instances, loan)
    }

    pub fn iterate(&mut self, text: &[u8], line: &[u8]) -> Answer {
        let loan = Loan {
            state: &mut self.state,
            scratch: &mut self.scratch,
            slots: &mut self.slots,
        };
        machine::iterate(text, self.board, line, loan)
    }

    /// The words of the board's cells.
    pub fn words(&self) -> &[u32] {
        &self.state[..state_words(self.board.cells)]
    }

    pub fn cells_kept(&self) -> u32 {
        self.state[0]
    }

    /// The channels' values.
    pub fn trees(&self, file: &File) -> Vec<Rc<Tree>> {
        let state = State::new(self.words());
        let channels = &state.channels()[..file.channel_count()];
        channels
            .iter()
            .map(|cell| state.tree(file, *cell))
            .collect()
    }

    pub fn scratch_and_slots_are_zero(&self) -> bool {
        self.scratch
            .iter()
            .chain(&self.slots)
            .all(|word| *word == 0)
    }

    pub fn instances_are_zero(&self) -> bool {
        let unused = Instance::default();
        self.instances.iter().all(|record| *record == unused)
    }

    pub fn instances_entered(&self) -> usize {
        let entered = |record: &&Instance| record.function().is_some();
        self.instances.iter().filter(entered).count()
    }

    /// Fills what a call gives back zero, so that the next one is seen to.
    pub fn soil(&mut self) {
        self.scratch.fill(UNTOUCHED);
        self.slots.fill(UNTOUCHED);
    }
}

/// The board that lends exactly what is needed.
pub fn exact(bounds: Bounds) -> Board {
    Board {
        cells: bounds.heap,
        slots: bounds.environment,
        calls: bounds.stack,
    }
}
