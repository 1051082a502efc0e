//! What a checker answers and leaves, by either engine.

use crate::engine::{Engine, UNTOUCHED_RECORD};
use crate::entered::entered;
use crate::library::Library;
use crate::reference::Reference;
use crate::report;
use evaluator::answer::{Answer, Board};
use generator::case::Case;
use paugmeln::{Instance, LIST_RECORDS};

/// What a checker leaves: its answer, and every record of the lent list.
#[derive(Clone, Debug, PartialEq, Eq)]
pub struct Checked {
    pub answer: Answer,
    pub list: Vec<Instance>,
}

/// The board and the text of a case; the largest board where it names none.
pub fn asked(case: &Case) -> (Board, &[u8]) {
    let board = match case {
        Case::Run { board, .. } | Case::Iteration { board, .. } => *board,
        Case::Write { .. } => Board::LARGEST,
    };
    (board, case.text())
}

/// Checks with an engine that is lent this list.
pub fn checked(
    engine: &mut dyn Engine,
    text: &[u8],
    board: Board,
    mut list: Vec<Instance>,
) -> Checked {
    let answer = engine.check(text, board, &mut list);
    Checked { answer, list }
}

/// Checks with the proved checker, lending a list of so many records.
pub fn by_library(text: &[u8], board: Board, records: usize) -> Checked {
    checked(&mut Library, text, board, vec![UNTOUCHED_RECORD; records])
}

/// The same by the Rust checker.
pub fn by_reference(text: &[u8], board: Board, records: usize) -> Checked {
    let list = vec![UNTOUCHED_RECORD; records];
    checked(&mut Reference::new(), text, board, list)
}

/// What the proved checker says of a case, one line without its end.
pub fn report_by_library(case: &Case) -> String {
    let (board, text) = asked(case);
    let Checked { answer, list } = by_library(text, board, LIST_RECORDS);
    report::check(&answer, &entered(text, board, &list))
}
