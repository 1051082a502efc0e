//! The format of a case, one a line:
//!
//! ```text
//! CASE <cells> <slots> <calls> <hex of text> <n> <hex of line 1> ... <hex of line n>
//! ITER <cells> <slots> <calls> <hex of text> <state words> <hex of line>
//! WRITE <buffer length> <hex of text>
//! ```

use evaluator::answer::Board;
use generator::case::Case;

const RUN: &str = "CASE";
const ITERATION: &str = "ITER";
const WRITING: &str = "WRITE";

/// What stands for no bytes or no words.
const NOTHING: &str = "-";

/// The case a line holds, none where it is no case.
pub fn parse(line: &str) -> Option<Case> {
    let parts: Vec<&str> = line.split(' ').collect();
    match parts[..] {
        [RUN, cells, slots, calls, text, count, ref lines @ ..] => {
            let whole = count.parse() == Ok(lines.len());
            let lines = lines.iter().map(|line| bytes(line));
            let run = Case::Run {
                board: board([cells, slots, calls])?,
                text: bytes(text)?,
                lines: lines.collect::<Option<_>>()?,
            };
            whole.then_some(run)
        }
        [ITERATION, cells, slots, calls, text, state, line] => Some(Case::Iteration {
            board: board([cells, slots, calls])?,
            text: bytes(text)?,
            state: words(state)?,
            line: bytes(line)?,
        }),
        [WRITING, room, text] => Some(Case::Write {
            room: room.parse().ok()?,
            text: bytes(text)?,
        }),
        _ => None,
    }
}

fn board([cells, slots, calls]: [&str; 3]) -> Option<Board> {
    Some(Board {
        cells: cells.parse().ok()?,
        slots: slots.parse().ok()?,
        calls: calls.parse().ok()?,
    })
}

/// The line of a case, without its end.
pub fn write(case: &Case) -> String {
    match case {
        Case::Run { board, text, lines } => {
            let mut parts = vec![head(RUN, *board, text), lines.len().to_string()];
            parts.extend(lines.iter().map(|line| hex(line)));
            parts.join(" ")
        }
        Case::Iteration {
            board,
            text,
            state,
            line,
        } => [head(ITERATION, *board, text), listed(state), hex(line)].join(" "),
        Case::Write { room, text } => format!("{WRITING} {room} {}", hex(text)),
    }
}

fn head(kind: &str, board: Board, text: &[u8]) -> String {
    let (cells, slots, calls) = (board.cells, board.slots, board.calls);
    format!("{kind} {cells} {slots} {calls} {}", hex(text))
}

fn bytes(part: &str) -> Option<Vec<u8>> {
    if part == NOTHING {
        return Some(Vec::new());
    }
    if !part.len().is_multiple_of(2) || !part.is_ascii() {
        return None;
    }
    let pairs = (0..part.len()).step_by(2);
    let byte = |at: usize| u8::from_str_radix(&part[at..at + 2], 16).ok();
    pairs.map(byte).collect()
}

/// Bytes in lower-case hexadecimal.
pub fn hex(bytes: &[u8]) -> String {
    match bytes.is_empty() {
        true => NOTHING.to_string(),
        false => bytes.iter().map(|byte| format!("{byte:02x}")).collect(),
    }
}

fn words(part: &str) -> Option<Vec<u32>> {
    if part == NOTHING {
        return Some(Vec::new());
    }
    let word = |digits: &str| u32::from_str_radix(digits, 16).ok();
    part.split('.').map(word).collect()
}

fn listed(words: &[u32]) -> String {
    match words.is_empty() {
        true => NOTHING.to_string(),
        false => join(words),
    }
}

/// Words in lower-case hexadecimal, separated by points.
pub fn join(words: &[u32]) -> String {
    let digits: Vec<String> = words.iter().map(|word| format!("{word:x}")).collect();
    digits.join(".")
}
