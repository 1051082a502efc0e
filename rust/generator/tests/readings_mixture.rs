//! The mixtures have files whose nodes are updated in another order than the
//! table's, and files in which nodes read themselves, with every answer.

mod support;

use evaluator::limits::{state_words, SCRATCH_WORDS};
use evaluator::machine::write;
use evaluator::reader;
use evaluator::readings::{check, order};
use evaluator::stack::with_deep_stack;
use evaluator::syntax::File;
use evaluator::validity::is_valid;
use generator::case::Case;
use generator::mixture::Mixture;
use generator::typed::TypedMixture;
use std::collections::BTreeMap;
use support::Lent;

/// What the readings of a file are like.
#[derive(Clone, Copy, Debug, PartialEq, Eq, PartialOrd, Ord)]
enum Kind {
    /// Updated in another order than the table's.
    Ordered,
    /// Some node reads itself.
    Ring,
}

use Kind::{Ordered, Ring};

fn kind(file: &File) -> Option<Kind> {
    let as_in_table = order(file).into_iter().eq(0..file.nodes.len());
    match check(file) {
        Err(_) => Some(Ring),
        Ok(()) => (!as_in_table).then_some(Ordered),
    }
}

/// What a case asks for. Without: on a board over its maximum, or with words
/// that are no state of the file.
#[derive(Clone, Copy, Debug, PartialEq, Eq, PartialOrd, Ord)]
enum Asked {
    Check,
    CheckWithout,
    Iteration,
    IterationWithout,
    Write,
}

fn asked(file: &File, case: &Case) -> Asked {
    match case {
        Case::Run { board, .. } if board.within_maximum() => Asked::Check,
        Case::Run { .. } => Asked::CheckWithout,
        Case::Iteration { board, state, .. } => {
            let words = state.get(..state_words(board.cells));
            let valid = |words| is_valid(file, words, board.cells, &mut [0; SCRATCH_WORDS]);
            match words.is_some_and(valid) {
                true => Asked::Iteration,
                false => Asked::IterationWithout,
            }
        }
        Case::Write { .. } => Asked::Write,
    }
}

/// The number of the check, iteration or writing that a case asks for.
fn number(case: &Case) -> u32 {
    let answer = match case {
        Case::Run { board, text, .. } => Lent::new(*board, 0).check(text),
        Case::Iteration {
            board,
            text,
            state,
            line,
        } => {
            let mut lent = Lent::new(*board, 0);
            lent.state = state.clone();
            lent.iterate(text, line)
        }
        Case::Write { room, text } => write(text, &mut vec![0; *room]),
    };
    answer.number
}

type Counts = BTreeMap<(Kind, Asked, u32), usize>;

/// How often files of either kind are answered with each number.
fn counted(cases: usize, mut next_case: impl FnMut() -> Case) -> Counts {
    let mut counts = Counts::new();
    for case in (0..cases).map(|_| next_case()) {
        let Ok(file) = reader::read(case.text()) else {
            continue;
        };
        if let Some(kind) = kind(&file) {
            let key = (kind, asked(&file, &case), number(&case));
            *counts.entry(key).or_default() += 1;
        }
    }
    counts
}

/// A kind of file, what is asked for, and what is to be answered somewhere.
type Row = (Kind, Asked, &'static [u32]);

/// Both mixtures: 9 comes before 25, and 25 before 18.
const EVERYWHERE: [Row; 7] = [
    (Ordered, Asked::Check, &[0, 15]),
    (Ordered, Asked::CheckWithout, &[18]),
    (Ordered, Asked::Iteration, &[0, 20, 21, 22, 23]),
    (Ring, Asked::Check, &[9, 25]),
    (Ring, Asked::CheckWithout, &[25]),
    (Ring, Asked::Iteration, &[25]),
    (Ring, Asked::IterationWithout, &[25]),
];

/// The writer does not look for 25.
const WRITTEN: [Row; 2] = [
    (Ordered, Asked::Write, &[0, 24]),
    (Ring, Asked::Write, &[0, 24]),
];

fn assert_met(rows: &[Row], counts: &Counts) {
    for (kind, asked, numbers) in rows {
        for number in *numbers {
            let met = counts.contains_key(&(*kind, *asked, *number));
            assert!(met, "{kind:?} {asked:?} {number}");
        }
    }
}

#[test]
fn the_mixture_has_both_kinds_with_every_answer() {
    let counts = with_deep_stack(|| {
        let mut mixture = Mixture::new(81);
        counted(8_000, || mixture.next_case())
    })
    .expect("every case is answered");
    println!("{counts:?}");
    assert_met(&EVERYWHERE, &counts);
    assert!(counts[&(Ordered, Asked::Check, 0)] >= 100);
    assert!(counts[&(Ring, Asked::Check, 25)] >= 100);
}

#[test]
fn and_so_has_the_mixture_with_typed_texts() {
    let counts = with_deep_stack(|| {
        let mut mixture = TypedMixture::new(83);
        counted(16_000, || mixture.next_case())
    })
    .expect("every case is answered");
    println!("{counts:?}");
    assert_met(&EVERYWHERE, &counts);
    assert_met(&WRITTEN, &counts);
}
