//! Long runs of accepted files on exactly the board that they need, beside the plain machine.

use evaluator::plain::{PlainMachine, Step};
use evaluator::reader;
use evaluator::syntax::File;
use evaluator::value::Tree;
use generator::damage::damaged_line;
use generator::examples::{listing3, top10sum};
use generator::mixture::Mixture;
use generator::random::Random;
use generator::values::random_line;
use generator::writer;
use paugmeln::{Board, Sizes, Value};
use std::rc::Rc;

/// How many of the files are generated; the others are listing 3 and top10sum.
pub const GENERATED: usize = 10;

/// Channels are compared each time so many lines were given.
const COMPARED_EVERY: usize = 1_000;

/// One line in so many is damaged.
const DAMAGED_EVERY: usize = 8;

/// The files with their names: two examples, and generated ones that have inputs and call functions.
pub fn files(seed: u64) -> Vec<(String, File)> {
    let mut mixture = Mixture::new(seed);
    let accepted = std::iter::repeat_with(|| mixture.accepted_file());
    let lively = accepted.filter(|(file, bounds)| !file.inputs.is_empty() && bounds.stack > 0);
    let generated = lively.take(GENERATED).enumerate();
    let generated = generated.map(|(at, (file, _))| (format!("generated {at}"), file));
    let examples = [("listing 3", listing3()), ("top10sum", top10sum())];
    let examples = examples.map(|(name, file)| (name.to_string(), file));
    examples.into_iter().chain(generated).collect()
}

/// How many lines were answered with 0 and with 19.
#[derive(Clone, Copy, Debug, PartialEq, Eq)]
pub struct Taken {
    pub taken: usize,
    pub refused: usize,
}

/// Gives a file so many lines, some of them damaged.
///
/// # Panics
///
/// Where an answer is neither 0 nor 19, or not the plain machine's; where the channels are seen to differ from the plain
/// machine's, or more cells are kept than stated.
pub fn run(file: &File, lines: usize, seed: u64) -> Taken {
    let text = writer::text(file);
    assert_eq!(reader::read(&text).as_ref(), Ok(file));
    let mut board = started(&text);
    let stated = board.cells_stated();
    let mut machine = PlainMachine::new(file);
    let mut random = Random::new(seed);
    let mut count = Taken {
        taken: 0,
        refused: 0,
    };
    compare(&board, &machine, stated);
    for number in 1..=lines {
        let line = any_line(&mut random, file);
        match (answered(&mut board, &line), machine.step(&line)) {
            (0, Step::Taken) => count.taken += 1,
            (19, Step::NotAllowed) => count.refused += 1,
            unlike => panic!("{unlike:?} at line {number}"),
        }
        if number % COMPARED_EVERY == 0 || number == lines {
            compare(&board, &machine, stated);
        }
    }
    count
}

/// The board that has exactly what the file needs.
fn started(text: &[u8]) -> Board {
    let largest = Board::start(text, Sizes::LARGEST).expect("an accepted file");
    Board::start(text, largest.numbers().into()).expect("a board that has what is needed")
}

fn any_line(random: &mut Random, file: &File) -> Vec<u8> {
    match random.one_in(DAMAGED_EVERY) {
        true => damaged_line(random, file),
        false => random_line(random, file),
    }
}

fn answered(board: &mut Board, line: &[u8]) -> u32 {
    match board.line(line) {
        Ok(()) => 0,
        Err(refusal) => refusal.number,
    }
}

fn compare(board: &Board, machine: &PlainMachine, stated: u32) {
    assert_eq!(trees(board), machine.channels());
    assert!(board.cells_kept() <= stated);
}

/// The values of all channels as the Rust evaluator has them.
pub fn trees(board: &Board) -> Vec<Rc<Tree>> {
    let channels = 0..board.channel_count();
    channels.map(|at| tree(&board.channel(at))).collect()
}

fn tree(value: &Value) -> Rc<Tree> {
    Rc::new(match value {
        Value::Bool(held) => Tree::Bool(*held),
        Value::Int(held) => Tree::Int(*held),
        Value::Construction {
            type_index,
            constructor,
            size,
            fields,
        } => Tree::Construction {
            type_index: *type_index,
            constructor: *constructor,
            size: *size as usize,
            fields: fields.iter().map(tree).collect(),
        },
    })
}
