//! A mixture of cases with strict texts, whole and damaged, in which every
//! refusal of document 01 occurs, and 25 of document 02.

use crate::case::Case;
use crate::damage::{damage_characters, damage_frames, damage_state, damaged_line, lower_size};
use crate::edges;
use crate::files::random_file;
use crate::random::Random;
use crate::readings;
use crate::sides;
use crate::states::lay_out;
use crate::values::{random_channels, random_line};
use crate::writer;
use evaluator::answer::{Board, Bounds};
use evaluator::instances::Instance;
use evaluator::limits::{INSTANCES, LARGEST_SIZE};
use evaluator::machine::check;
use evaluator::syntax::{Expression, File};

/// A board on which most generated files run.
const USUAL: Board = Board {
    cells: 80,
    slots: 40,
    calls: 12,
};

/// Files whose heap is above this are left out, to keep cases short.
const LARGEST_HEAP: u32 = 160;

/// One accepted file in so many is there for the order of its nodes.
const ORDERED_EVERY: usize = 10;

/// An endless mixture of cases.
pub struct Mixture {
    random: Random,
    edges: Vec<Vec<u8>>,
    instances: Vec<Instance>,
}

type Kind = fn(&mut Mixture) -> Case;

/// How often each kind of case occurs.
const KINDS: [(usize, Kind); 15] = [
    (2, Mixture::edge),
    (1, Mixture::board_over_maximum),
    (4, Mixture::board_one_less),
    (5, Mixture::damaged_text),
    (8, Mixture::damaged_frames),
    (3, Mixture::loose_run),
    (4, Mixture::damaged_state),
    (4, Mixture::tight_iteration),
    (3, Mixture::loose_iteration),
    (3, Mixture::lowered_iteration),
    (1, Mixture::growing_iteration),
    (3, Mixture::side_iteration),
    (2, Mixture::ring_run),
    (2, Mixture::ring_iteration),
    (7, Mixture::whole_run),
];

impl Mixture {
    pub fn new(seed: u64) -> Mixture {
        Mixture {
            random: Random::new(seed),
            edges: edges::all(),
            instances: vec![Instance::default(); INSTANCES],
        }
    }

    pub fn next_case(&mut self) -> Case {
        let total = KINDS.iter().map(|(weight, _)| weight).sum();
        let mut chosen = self.random.below(total);
        for (weight, kind) in KINDS {
            match chosen.checked_sub(weight) {
                Some(rest) => chosen = rest,
                None => return kind(self),
            }
        }
        self.whole_run()
    }

    /// A file that the largest board accepts, and what it needs.
    pub fn accepted_file(&mut self) -> (File, Bounds) {
        loop {
            let file = match self.random.one_in(ORDERED_EVERY) {
                true => readings::ordered_file(&mut self.random),
                false => random_file(&mut self.random, false),
            };
            let text = writer::text(&file);
            let answer = check(&text, Board::LARGEST, &mut self.instances);
            if answer.number == 0 && answer.bounds.heap <= LARGEST_HEAP {
                return (file, answer.bounds);
            }
        }
    }

    /// Lines for a file, most of them allowed.
    fn lines(&mut self, file: &File) -> Vec<Vec<u8>> {
        let count = self.random.below(4);
        (0..count).map(|_| self.line(file)).collect()
    }

    fn line(&mut self, file: &File) -> Vec<u8> {
        match self.random.one_in(4) {
            true => damaged_line(&mut self.random, file),
            false => random_line(&mut self.random, file),
        }
    }

    fn run(&mut self, board: Board, file: &File, text: Vec<u8>) -> Case {
        let lines = self.lines(file);
        Case::Run { board, text, lines }
    }

    fn whole_run(&mut self) -> Case {
        let (file, bounds) = self.accepted_file();
        let spare = self.random.below(2) as u32 * self.random.below(5) as u32;
        let board = Board {
            cells: bounds.heap + spare,
            slots: bounds.environment + spare,
            calls: bounds.stack + spare,
        };
        self.run(board, &file, writer::text(&file))
    }

    fn board_one_less(&mut self) -> Case {
        let (file, bounds) = self.accepted_file();
        let mut parts = [bounds.heap, bounds.environment, bounds.stack];
        let lowered = self.random.below(parts.len());
        parts[lowered] = parts[lowered].saturating_sub(1);
        let [cells, slots, calls] = parts;
        let board = Board {
            cells,
            slots,
            calls,
        };
        self.run(board, &file, writer::text(&file))
    }

    fn board_over_maximum(&mut self) -> Case {
        let (file, _) = self.accepted_file();
        self.run_over_maximum(&file)
    }

    fn run_over_maximum(&mut self, file: &File) -> Case {
        let mut board = Board::LARGEST;
        match self.random.below(3) {
            0 => board.cells += 1,
            1 => board.slots += 1,
            _ => board.calls += 1,
        }
        // No state of the largest board is written out.
        let lines = vec![];
        let text = writer::text(file);
        Case::Run { board, text, lines }
    }

    fn edge(&mut self) -> Case {
        let text = self.random.pick(&self.edges).clone();
        let lines = vec![];
        let board = Board {
            cells: USUAL.cells,
            ..Board::LARGEST
        };
        Case::Run { board, text, lines }
    }

    fn damaged_text(&mut self) -> Case {
        let (file, _) = self.accepted_file();
        let mut text = writer::text(&file);
        damage_characters(&mut self.random, &mut text);
        self.run(USUAL, &file, text)
    }

    fn damaged_frames(&mut self) -> Case {
        let (file, _) = self.accepted_file();
        let mut frames = writer::frames(&file);
        damage_frames(&mut self.random, &mut frames);
        self.run(USUAL, &file, writer::text_of_frames(&frames))
    }

    fn loose_run(&mut self) -> Case {
        let file = random_file(&mut self.random, true);
        self.run(USUAL, &file, writer::text(&file))
    }

    /// An iteration on a state with random values of the channels.
    fn iteration(&mut self, file: &File, spare: u32, slots: u32, calls: u32) -> Case {
        let channels = random_channels(&mut self.random, file, file.channel_count());
        let state = lay_out(&mut self.random, &channels, spare);
        let board = Board {
            cells: state[0] + spare,
            slots,
            calls,
        };
        Case::Iteration {
            board,
            text: writer::text(file),
            state,
            line: random_line(&mut self.random, file),
        }
    }

    /// A state with a word changed, or judged by a file with a size lowered.
    fn damaged_state(&mut self) -> Case {
        let (mut file, _) = self.accepted_file();
        let spare = self.random.below(20) as u32;
        let mut case = self.iteration(&file, spare, USUAL.slots, USUAL.calls);
        if let Case::Iteration {
            text, state, line, ..
        } = &mut case
        {
            match self.random.one_in(5) {
                true => lower_size(&mut self.random, &mut file),
                false => damage_state(&mut self.random, state),
            }
            *text = writer::text(&file);
            if self.random.one_in(4) {
                *line = self.line(&file);
            }
        }
        case
    }

    fn tight_iteration(&mut self) -> Case {
        let (file, bounds) = self.accepted_file();
        let below = |random: &mut Random, bound: u32| random.below(bound as usize + 1) as u32;
        let spare = below(&mut self.random, bounds.heap);
        let slots = below(&mut self.random, bounds.environment);
        let calls = below(&mut self.random, bounds.stack);
        self.iteration(&file, spare, slots, calls)
    }

    /// An accepted file with a size lowered afterwards.
    fn lowered_iteration(&mut self) -> Case {
        let (mut file, bounds) = self.accepted_file();
        lower_size(&mut self.random, &mut file);
        self.iteration(&file, bounds.heap, bounds.environment, bounds.stack)
    }

    fn growing_iteration(&mut self) -> Case {
        let file = edges::growing_list();
        let spare = self.random.below(3) as u32;
        self.iteration(&file, spare, 0, 0)
    }

    /// A right side of `06` or `07` that costs more or less than is lent.
    fn side_iteration(&mut self) -> Case {
        let file = sides::random_file(&mut self.random);
        let [spare, slots, calls] = [40, 12, 12].map(|below| self.random.below(below) as u32);
        self.iteration(&file, spare, slots, calls)
    }

    /// Nodes that read themselves: 25, also on a board over its maximum, but 9
    /// where a node's initial value is of another type.
    fn ring_run(&mut self) -> Case {
        let mut file = readings::ring_file(&mut self.random);
        match self.random.below(6) {
            0 => return self.run_over_maximum(&file),
            1 => {
                let node = self.random.below(file.nodes.len());
                file.nodes[node].initial = Expression::Bool(true);
            }
            _ => {}
        }
        self.run(USUAL, &file, writer::text(&file))
    }

    /// The same with a state of the file, or with a word of it changed.
    fn ring_iteration(&mut self) -> Case {
        let file = readings::ring_file(&mut self.random);
        let mut case = self.iteration(&file, USUAL.cells, USUAL.slots, USUAL.calls);
        if let Case::Iteration { state, .. } = &mut case {
            if self.random.one_in(2) {
                damage_state(&mut self.random, state);
            }
        }
        case
    }

    /// Sizes that do not agree, with room for the values to grow.
    fn loose_iteration(&mut self) -> Case {
        let file = random_file(&mut self.random, true);
        let spare = self.random.below(LARGEST_SIZE) as u32;
        self.iteration(&file, spare, USUAL.slots, 5)
    }
}
