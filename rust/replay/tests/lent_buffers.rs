//! Start, iteration and writer leave the same as the Rust evaluator in all that is lent, whatever it holds before, where it is
//! longer than is asked and where it is too short.

mod support;

use evaluator::answer::{Answer, Board, Refusal};
use evaluator::limits::state_words;
use evaluator::stack::with_deep_stack;
use generator::case::Case;
use generator::mixture::Mixture;
use generator::random::Random;
use generator::typed::mixture::room;
use generator::typed::{habits, typed};
use generator::writer;
use paugmeln::{Instance, LIST_RECORDS};
use replay::engine::{lendable_cells, Buffers, Engine, UNTOUCHED, UNTOUCHED_RECORD};
use replay::library::Library;
use replay::reference::Reference;
use std::collections::BTreeSet;
use support::lists::{self, Trial};

const CASES: usize = 4_000;

/// Words or records that were not asked for at the end of a buffer, or one that is missing.
fn change_length<T: Clone>(random: &mut Random, buffer: &mut Vec<T>, untouched: T) {
    let length = match random.below(8) {
        0 => buffer.len().saturating_sub(1),
        1..=4 => buffer.len() + random.between(1, 7),
        _ => buffer.len(),
    };
    buffer.resize(length, untouched);
}

/// The list and the other buffers.
type Lent = (Vec<Instance>, Buffers);

/// What is lent for a case, each buffer now and then longer or too short.
fn lent(random: &mut Random, board: Board, state: Vec<u32>) -> Lent {
    let mut list = vec![UNTOUCHED_RECORD; LIST_RECORDS];
    change_length(random, &mut list, UNTOUCHED_RECORD);
    let mut buffers = Buffers::new(board, state);
    let Buffers {
        state,
        scratch,
        slots,
    } = &mut buffers;
    for words in [state, scratch, slots] {
        change_length(random, words, UNTOUCHED);
    }
    (list, buffers)
}

/// What a call leaves of copies of what is lent, and the number that it answers.
type Left = (Answer, Vec<Instance>, Buffers);

fn started(engine: &mut dyn Engine, text: &[u8], board: Board, lent: &Lent) -> Left {
    let (mut list, mut buffers) = lent.clone();
    let answer = engine.start(text, board, &mut list, &mut buffers);
    (answer, list, buffers)
}

fn iterated(
    engine: &mut dyn Engine,
    (text, line): (&[u8], &[u8]),
    board: Board,
    lent: &Lent,
) -> Left {
    let (list, mut buffers) = lent.clone();
    let answer = engine.iterate(text, board, line, &mut buffers);
    (answer, list, buffers)
}

/// Both engines on one case; gives the number answered.
fn compared(random: &mut Random, rust: &mut Reference, case: &Case) -> u32 {
    let (found, expected) = match case {
        Case::Run { board, text, .. } => {
            let words = lendable_cells(*board).map_or(0, state_words);
            let lent = lent(random, *board, vec![UNTOUCHED; words]);
            let left = |engine: &mut dyn Engine| started(engine, text, *board, &lent);
            (left(&mut Library), left(rust))
        }
        Case::Iteration {
            board,
            text,
            state,
            line,
        } => {
            let lent = lent(random, *board, state.clone());
            let left = |engine: &mut dyn Engine| iterated(engine, (text, line), *board, &lent);
            (left(&mut Library), left(rust))
        }
        Case::Write { .. } => unreachable!("the plain mixture writes nothing"),
    };
    assert!(found == expected, "{:?} for {case:?}", found.0);
    assert!(found.2.are_clean());
    found.0.number
}

#[test]
fn all_words_and_records_agree() {
    let numbers = with_deep_stack(|| {
        let (mut mixture, mut random) = (Mixture::new(97), Random::new(101));
        let mut rust = Reference::new();
        let cases = (0..CASES).map(|_| mixture.next_case());
        let numbers = cases.map(|case| compared(&mut random, &mut rust, &case));
        numbers.collect::<BTreeSet<u32>>()
    })
    .expect("every word and record agrees");
    let written = Refusal::WriteBuffer.number();
    let expected = (0..=Refusal::ReadsItself.number()).filter(|number| *number != written);
    assert_eq!(numbers, expected.collect());
}

/// What is left in a buffer of so many bytes that holds this before.
fn written(engine: &mut dyn Engine, text: &[u8], (room, byte): (usize, u8)) -> (Answer, Vec<u8>) {
    let mut buffer = vec![byte; room];
    let answer = engine.write(text, &mut buffer);
    (answer, buffer)
}

#[test]
fn all_bytes_of_the_strict_text_agree() {
    let numbers = with_deep_stack(|| {
        let (mut mixture, mut random) = (Mixture::new(103), Random::new(107));
        let mut numbers = BTreeSet::new();
        for _ in 0..CASES {
            let strict = writer::text(&mixture.accepted_file().0);
            let some = habits(&mut random);
            let text = typed(&mut random, &strict, &some);
            let lent = (room(&mut random, strict.len()), random.number() as u8);
            let found = written(&mut Library, &text, lent);
            assert_eq!(found, written(&mut Reference::new(), &text, lent));
            numbers.insert(found.0.number);
        }
        numbers
    });
    let numbers = numbers.expect("every byte agrees");
    assert_eq!(numbers, BTreeSet::from([0, 24]));
}

/// Both engines with lists that hold this and that before; gives the numbers answered.
fn tried((text, board, records): Trial) -> impl Iterator<Item = u32> {
    let lists = lists::filled_before(records).into_iter();
    lists.map(move |list| {
        let state = vec![UNTOUCHED; state_words(board.cells)];
        let lent = (list, Buffers::new(board, state));
        let found = started(&mut Library, &text, board, &lent);
        let expected = started(&mut Reference::new(), &text, board, &lent);
        assert!(found == expected, "{:?} with {records} records", found.0);
        found.0.number
    })
}

#[test]
fn lists_of_all_lengths_agree() {
    let numbers = with_deep_stack(|| lists::trials().into_iter().flat_map(tried).collect());
    let numbers: BTreeSet<u32> = numbers.expect("every record agrees");
    assert_eq!(numbers, lists::NUMBERS.into());
}
