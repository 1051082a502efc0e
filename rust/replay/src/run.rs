//! One case after another.

use crate::engine::{lendable_cells, Buffers, Engine, UNTOUCHED_BYTE, UNTOUCHED_RECORD};
use crate::entered::entered;
use crate::report;
use evaluator::answer::Board;
use evaluator::limits::state_words;
use generator::case::Case;
use paugmeln::LIST_RECORDS;

/// The answer to a case, one line without its end.
pub fn run(engine: &mut dyn Engine, case: &Case) -> String {
    match case {
        Case::Run { board, text, lines } => run_lines(engine, *board, text, lines),
        Case::Iteration {
            board,
            text,
            state,
            line,
        } => {
            let mut buffers = Buffers::new(*board, state.clone());
            iteration(engine, *board, text, line, &mut buffers)
        }
        Case::Write { room, text } => {
            let mut buffer = vec![UNTOUCHED_BYTE; *room];
            let answer = engine.write(text, &mut buffer);
            report::writing(&answer, &buffer)
        }
    }
}

/// Both answers to a case where they differ, one a line.
pub fn difference(library: &mut dyn Engine, rust: &mut dyn Engine, case: &Case) -> Option<String> {
    let (library, rust) = (run(library, case), run(rust, case));
    (library != rust).then(|| format!("library {library}\nrust {rust}"))
}

fn run_lines(engine: &mut dyn Engine, board: Board, text: &[u8], lines: &[Vec<u8>]) -> String {
    let words = lendable_cells(board).map_or(0, state_words);
    let mut buffers = Buffers::new(board, vec![0; words]);
    let mut parts = vec![checked_and_started(engine, board, text, &mut buffers)];
    for line in lines {
        parts.push(iteration(engine, board, text, line, &mut buffers));
    }
    parts.join(";")
}

fn checked_and_started(
    engine: &mut dyn Engine,
    board: Board,
    text: &[u8],
    buffers: &mut Buffers,
) -> String {
    let [mut list, mut again] = [(); 2].map(|()| vec![UNTOUCHED_RECORD; LIST_RECORDS]);
    let checked = engine.check(text, board, &mut list);
    buffers.soil();
    let started = engine.start(text, board, &mut again, buffers);
    assert!(buffers.are_clean(), "start left scratch or slots not zero");
    assert!(list == again, "check and start left unlike lists");
    let checked = report::check(&checked, &entered(text, board, &list));
    let started = report::start(&started, &buffers.state);
    format!("{checked};{started}")
}

fn iteration(
    engine: &mut dyn Engine,
    board: Board,
    text: &[u8],
    line: &[u8],
    buffers: &mut Buffers,
) -> String {
    buffers.soil();
    let answer = engine.iterate(text, board, line, buffers);
    assert!(
        buffers.are_clean(),
        "iteration left scratch or slots not zero"
    );
    report::iteration(&answer, &buffers.state)
}
