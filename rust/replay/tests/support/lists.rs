//! Lists of instances to lend: of all lengths, with anything in them.

use super::example;
use evaluator::answer::Board;
use generator::examples::listing3;
use generator::{edges, writer};
use paugmeln::{Instance, LIST_RECORDS};
use replay::checking::by_library;
use replay::engine::filled;

/// Lengths in records: too short, as long as is asked, longer.
pub const LENGTHS: [usize; 6] = [
    0,
    1,
    LIST_RECORDS - 1,
    LIST_RECORDS,
    LIST_RECORDS + 1,
    2 * LIST_RECORDS,
];

/// Lists of so many records: empty ones, 1 everywhere, every bit set, and what a check of another file left.
pub fn filled_before(records: usize) -> [Vec<Instance>; 4] {
    let mut left = by_library(&example("top10sum"), Board::LARGEST, LIST_RECORDS).list;
    left.resize(records, Instance::EMPTY);
    let [empty, ones, bits] = [0, 1, u32::MAX].map(|number| vec![filled(number); records]);
    [empty, ones, bits, left]
}

/// A text and a board, and how many records the list has that is lent with them.
pub type Trial = (Vec<u8>, Board, usize);

/// The numbers that the trials are answered with.
pub const NUMBERS: [u32; 5] = [0, 3, 14, 15, 18];

/// Each text on each board with each length of a list.
pub fn trials() -> Vec<Trial> {
    let boards = [Board::LARGEST, NOTHING];
    let on_boards = texts()
        .into_iter()
        .flat_map(|text| boards.map(|board| (text.clone(), board)));
    on_boards
        .flat_map(|(text, board)| LENGTHS.map(|records| (text.clone(), board, records)))
        .collect()
}

/// Ten instances, as many as there may be, one too many, and no file at all.
fn texts() -> [Vec<u8>; 4] {
    let full = edges::instances(32, 32);
    let over = edges::instances(33, 32);
    [
        writer::text(&listing3()),
        writer::text(&full),
        writer::text(&over),
        vec![],
    ]
}

const NOTHING: Board = Board {
    cells: 0,
    slots: 0,
    calls: 0,
};
