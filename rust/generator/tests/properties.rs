//! What holds of every accepted file, tried on generated ones.

mod support;

use evaluator::answer::{Answer, Board, Bounds};
use evaluator::cells::CellTable;
use evaluator::line;
use evaluator::plain::{PlainMachine, Step};
use evaluator::reader;
use evaluator::stack::with_deep_stack;
use evaluator::syntax::{File, SizedType};
use evaluator::value::Tree;
use generator::damage::damaged_line;
use generator::files::random_file;
use generator::random::Random;
use generator::values::random_line;
use generator::writer;
use support::{exact, Lent};

/// Accepted files, each with its text and bounds, that are handed to `look`.
fn for_accepted_files(seed: u64, count: usize, look: fn(&mut Random, &File, &[u8], Bounds)) {
    with_deep_stack(move || {
        let mut random = Random::new(seed);
        let mut accepted = 0;
        while accepted < count {
            let file = random_file(&mut random, false);
            let text = writer::text(&file);
            let answer = Lent::new(Board::LARGEST, 0).check(&text);
            if answer.number == 0 {
                look(&mut random, &file, &text, answer.bounds);
                accepted += 1;
            }
        }
    })
    .expect("every accepted file holds");
}

fn any_line(random: &mut Random, file: &File) -> Vec<u8> {
    match random.one_in(3) {
        true => damaged_line(random, file),
        false => random_line(random, file),
    }
}

#[test]
fn a_written_file_reads_back() {
    let mut random = Random::new(1);
    for _ in 0..2_000 {
        let loose = random.one_in(2);
        let file = random_file(&mut random, loose);
        assert_eq!(reader::read(&writer::text(&file)), Ok(file));
    }
}

/// The most cells that the channels' values can take.
fn worst_case(file: &File) -> u32 {
    let table = CellTable::new(&file.types);
    let channels = 0..file.channel_count();
    channels
        .map(|channel| table.of(file.declared(channel)))
        .sum()
}

fn is_of_declared_type(tree: &Tree, declared: SizedType) -> bool {
    match (tree, declared) {
        (Tree::Bool(_), SizedType::Bool) | (Tree::Int(_), SizedType::Int) => true,
        (
            Tree::Construction { type_index, .. },
            SizedType::Named {
                type_index: t,
                size,
            },
        ) => *type_index == t && tree.size() <= size,
        _ => false,
    }
}

/// The state shows the plain machine's values, of their types and within their
/// sizes, and keeps no more cells than the stated worst case.
fn assert_state_shows(lent: &Lent, file: &File, plain: &PlainMachine) {
    let trees = lent.trees(file);
    assert_eq!(trees, plain.channels());
    let declared = (0..file.channel_count()).map(|channel| file.declared(channel));
    let mut typed = trees.iter().zip(declared);
    assert!(typed.all(|(tree, declared)| is_of_declared_type(tree, declared)));
    assert!(lent.cells_kept() <= worst_case(file));
}

fn runs_like_the_plain_machine(random: &mut Random, file: &File, text: &[u8], bounds: Bounds) {
    let mut lent = Lent::new(exact(bounds), random.below(3));
    assert_eq!(lent.start(text), Answer::accepted(bounds));
    let mut plain = PlainMachine::new(file);
    assert_state_shows(&lent, file, &plain);
    for _ in 0..random.below(12) {
        let line = any_line(random, file);
        let before = lent.state.clone();
        lent.soil();
        let answer = lent.iterate(text, &line);
        assert!(lent.scratch_and_slots_are_zero());
        let expected = match plain.step(&line) {
            Step::Taken => 0,
            Step::NotAllowed => 19,
            Step::NoValue => panic!("the rules derive a value for an accepted file"),
        };
        assert_eq!((answer.number, answer.frame), (expected, 0));
        assert_eq!(answer.bounds, Bounds::default());
        assert_eq!(expected == 0, line::read(file, &line).is_some());
        if expected != 0 {
            assert_eq!(lent.state, before);
        }
        assert_state_shows(&lent, file, &plain);
    }
}

#[test]
fn an_accepted_file_runs_like_the_plain_machine() {
    for_accepted_files(2, 4_000, runs_like_the_plain_machine);
}

fn refuses_one_less(_: &mut Random, _: &File, text: &[u8], bounds: Bounds) {
    let board = exact(bounds);
    let less = |part: u32| part.checked_sub(1);
    let boards = [
        (15, less(board.cells).map(|cells| Board { cells, ..board })),
        (16, less(board.slots).map(|slots| Board { slots, ..board })),
        (17, less(board.calls).map(|calls| Board { calls, ..board })),
    ];
    for (number, board) in boards {
        let Some(board) = board else { continue };
        let mut lent = Lent::new(board, 1);
        let before = lent.state.clone();
        let expected = Answer {
            number,
            frame: 0,
            bounds,
        };
        assert_eq!(lent.check(text), expected);
        assert_eq!(lent.start(text), expected);
        assert_eq!(lent.state, before);
        assert!(lent.instances_are_zero() && lent.scratch_and_slots_are_zero());
    }
}

#[test]
fn one_cell_slot_or_call_less_is_refused_with_15_16_or_17() {
    for_accepted_files(3, 3_000, refuses_one_less);
}

/// A board with at least what is needed.
fn larger(random: &mut Random, bounds: Bounds) -> Board {
    let more = |random: &mut Random, needed: u32, most: u32| {
        let room = (most - needed).min(40) as usize;
        needed + random.below(room + 1) as u32
    };
    Board {
        cells: more(random, bounds.heap, Board::LARGEST.cells),
        slots: more(random, bounds.environment, Board::LARGEST.slots),
        calls: more(random, bounds.stack, Board::LARGEST.calls),
    }
}

fn agrees_with_other_amounts(random: &mut Random, file: &File, text: &[u8], bounds: Bounds) {
    let mut one = Lent::new(exact(bounds), 0);
    let first = larger(random, bounds);
    let slots = Board::LARGEST.slots;
    let mut other = Lent::new(Board { slots, ..first }, 0);
    other.board = first;
    assert_eq!(one.start(text), other.start(text));
    for _ in 0..random.below(8) {
        // What is lent changes from line to line, but no call lends more cells
        // than the one that first filled the state.
        other.board = larger(random, bounds);
        other.board.cells = other.board.cells.min(first.cells);
        let line = any_line(random, file);
        assert_eq!(one.iterate(text, &line), other.iterate(text, &line));
        assert_eq!(one.trees(file), other.trees(file));
        assert_eq!(one.cells_kept(), other.cells_kept());
    }
}

#[test]
fn runs_with_different_amounts_lent_agree() {
    for_accepted_files(4, 2_000, agrees_with_other_amounts);
}

fn leaves_the_rest_of_longer_buffers(
    random: &mut Random,
    file: &File,
    text: &[u8],
    bounds: Bounds,
) {
    let extra = 7;
    let mut lent = Lent::new(exact(bounds), extra);
    lent.start(text);
    lent.iterate(text, &any_line(random, file));
    let rest = &lent.state[lent.words().len()..];
    assert_eq!(rest, [support::UNTOUCHED; 7]);
    assert!(lent.scratch_and_slots_are_zero());
}

#[test]
fn the_rest_of_a_longer_state_is_neither_read_nor_written() {
    for_accepted_files(5, 500, leaves_the_rest_of_longer_buffers);
}
