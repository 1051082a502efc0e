//! The board of the crate `paugmeln`, and its numbers, beside the Rust evaluator's.

mod support;

use evaluator::cells::CellTable;
use evaluator::limits;
use evaluator::plain::PlainMachine;
use evaluator::stack::with_deep_stack;
use generator::mixture::Mixture;
use generator::random::Random;
use generator::typed::{habits, typed};
use generator::values::random_line;
use generator::writer;
use paugmeln::{Board, Sizes};
use replay::library::sizes;
use replay::long::trees;
use support::example;

const GENERATED_FILES: usize = 500;

#[test]
fn the_limits_are_those_of_the_rust_evaluator() {
    assert_eq!(Sizes::LARGEST, sizes(evaluator::answer::Board::LARGEST));
    assert_eq!(paugmeln::TEXT_CHARACTERS, limits::TEXT_CHARACTERS);
    assert_eq!(paugmeln::SCRATCH_WORDS, limits::SCRATCH_WORDS);
    assert_eq!(paugmeln::LIST_RECORDS, limits::INSTANCES);
    for cells in [0, 25, limits::BOARD_CELLS] {
        let lent = Sizes {
            cells,
            ..Sizes::LARGEST
        };
        assert_eq!(lent.state_words(), limits::state_words(cells));
    }
}

#[test]
fn values_and_cells_of_generated_files() {
    let done = with_deep_stack(|| {
        let (mut mixture, mut random) = (Mixture::new(83), Random::new(89));
        for _ in 0..GENERATED_FILES {
            let (file, _) = mixture.accepted_file();
            let some = habits(&mut random);
            let text = typed(&mut random, &writer::text(&file), &some);
            let mut board = Board::start(&text, Sizes::LARGEST).expect("accepted");
            let cells = CellTable::new(&file.types);
            let channels = 0..file.channel_count();
            let stated: u32 = channels.map(|at| cells.of(file.declared(at))).sum();
            assert_eq!(board.cells_stated(), stated);
            assert_eq!(board.input_count(), file.inputs.len());
            let mut machine = PlainMachine::new(&file);
            let line = random_line(&mut random, &file);
            assert_eq!(trees(&board), machine.channels());
            board.line(&line).expect("an allowed line");
            machine.step(&line);
            assert_eq!(trees(&board), machine.channels());
        }
    });
    done.expect("every file agrees");
}

#[test]
fn a_board_over_the_maximum_is_refused_without_its_buffers() {
    let text = example("listing3");
    let huge = Sizes {
        cells: u32::MAX,
        slots: u32::MAX,
        calls: u32::MAX,
    };
    let refusal = Board::start(&text, huge).expect_err("no such board");
    assert_eq!(refusal.number, 18);
    let board = Board::start(&text, Sizes::LARGEST).expect("accepted");
    let line = b"0510001100000007\n";
    assert_eq!(
        board
            .try_line(line, huge)
            .expect_err("no such board")
            .number,
        18
    );
    assert_eq!(board.instances().len(), 10);
}

#[test]
#[should_panic(expected = "there is no channel 4")]
fn there_is_no_value_of_a_channel_that_is_not_there() {
    let board = Board::start(&example("listing3"), Sizes::LARGEST).expect("accepted");
    board.channel(4);
}
