//! An iteration that is lent one cell, slot or call less than was reported is taken, or refused with 20, 21 or 22 and leaves the
//! state as it was.

mod support;

use evaluator::answer::{Answer, Board};
use evaluator::limits::state_words;
use evaluator::line;
use evaluator::reader;
use evaluator::stack::with_deep_stack;
use evaluator::syntax::File;
use generator::mixture::Mixture;
use generator::random::Random;
use generator::values::random_line;
use generator::writer;
use paugmeln::{Instance, LIST_RECORDS};
use replay::engine::{Buffers, Engine};
use replay::library::Library;
use replay::reference::Reference;
use support::{example, root, stored, Counts};

const LINES: usize = 12;
const GENERATED_FILES: usize = 300;

/// A file that runs on the board that it needs.
struct Running<'a> {
    text: &'a [u8],
    needed: Board,
    state: Vec<u32>,
}

impl<'a> Running<'a> {
    fn start(text: &'a [u8]) -> Running<'a> {
        let mut list = vec![Instance::EMPTY; LIST_RECORDS];
        let bounds = Library.check(text, Board::LARGEST, &mut list).bounds;
        let needed = Board {
            cells: bounds.heap,
            slots: bounds.environment,
            calls: bounds.stack,
        };
        let mut buffers = Buffers::new(needed, vec![0; state_words(needed.cells)]);
        let answer = Library.start(text, needed, &mut list, &mut buffers);
        assert_eq!(answer.number, 0);
        Running {
            text,
            needed,
            state: buffers.state,
        }
    }

    /// What both engines answer to a line in the present state, and leave.
    fn iterated(&self, board: Board, line: &[u8]) -> (Answer, Buffers) {
        let mut rust = Reference::new();
        let engines: [&mut dyn Engine; 2] = [&mut Library, &mut rust];
        let [found, expected] = engines.map(|engine| {
            let mut buffers = Buffers::new(board, self.state.clone());
            let answer = engine.iterate(self.text, board, line, &mut buffers);
            (answer, buffers)
        });
        assert!(found == expected, "{line:?} on {board:?}");
        assert!(found.1.are_clean());
        found
    }

    /// Tries a line on a smaller board, where it may be refused with the number given.
    fn try_on(&self, board: Board, line: &[u8], spent: u32) -> u32 {
        let (answer, buffers) = self.iterated(board, line);
        if answer.number != 0 {
            assert_eq!(buffers.state, self.state);
            // A state that keeps all cells that are needed has one too many for the smaller board.
            let expected = match self.state[0] > board.cells {
                true => 18,
                false => spent,
            };
            assert_eq!(answer.number, expected);
        }
        answer.number
    }

    /// One cell, one slot, one call less, each with the number that says that it is spent.
    fn smaller(&self) -> [(u32, Board); 3] {
        let Board {
            cells,
            slots,
            calls,
        } = self.needed;
        let mut smaller = [(20, self.needed), (21, self.needed), (22, self.needed)];
        smaller[0].1.cells = cells.saturating_sub(1);
        smaller[1].1.slots = slots.saturating_sub(1);
        smaller[2].1.calls = calls.saturating_sub(1);
        smaller
    }

    fn take(&mut self, line: &[u8]) {
        let (answer, buffers) = self.iterated(self.needed, line);
        assert_eq!(answer.number, 0);
        self.state = buffers.state;
    }
}

/// Runs a file over allowed lines, each tried on the three smaller boards first; counts what those answer.
fn count(text: &[u8], lines: impl Iterator<Item = Vec<u8>>, counts: &mut Counts) {
    let mut running = Running::start(text);
    for line in lines {
        for (spent, board) in running.smaller() {
            let number = running.try_on(board, &line, spent);
            *counts.entry(number).or_default() += 1;
        }
        running.take(&line);
    }
}

/// The stored lines of an example that it allows.
fn allowed_lines(name: &str, file: &File) -> Vec<Vec<u8>> {
    let folder = root().join("examples/runs");
    let lines = stored(&folder, &format!("{name}.lines")).into_iter();
    let lines = lines.map(|line| format!("{line}\n").into_bytes());
    lines
        .filter(|given| line::read(file, given).is_some())
        .collect()
}

#[test]
fn of_the_examples() {
    let counts = with_deep_stack(|| {
        let mut counts = Counts::new();
        for name in ["accumulate", "allowed", "dose", "listing3", "top10sum"] {
            let text = example(name);
            let file = reader::read(&text).expect("a readable file");
            let lines = allowed_lines(name, &file);
            count(&text, lines.into_iter(), &mut counts);
        }
        counts
    })
    .expect("every answer is as it should be");
    println!("{counts:?}");
    assert!([0, 20, 21, 22]
        .iter()
        .all(|number| counts.contains_key(number)));
}

#[test]
fn of_generated_files() {
    let counts = with_deep_stack(|| {
        let (mut mixture, mut random) = (Mixture::new(73), Random::new(79));
        let mut counts = Counts::new();
        for _ in 0..GENERATED_FILES {
            let (file, _) = mixture.accepted_file();
            let lines = (0..LINES).map(|_| random_line(&mut random, &file));
            count(&writer::text(&file), lines, &mut counts);
        }
        counts
    })
    .expect("every answer is as it should be");
    println!("{counts:?}");
    assert!([0, 20, 21, 22]
        .iter()
        .all(|number| counts.contains_key(number)));
}
