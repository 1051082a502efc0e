//! Starts a rule file with the largest board and feeds it the lines of standard input:
//!
//! ```text
//! run [--json] FILE < lines
//! ```
//!
//! After the start and after each line it writes the values of the channels and how many cells are kept of how many stated, at the
//! end the most that was used of heap, environment and stack beside what the file needs.
//!
//! Exit status: 0 where the file is accepted and every line is taken, 1 where the file or a line is refused, 2 where there is no
//! answer (a file that cannot be read, say).

mod json;
mod report;
mod text;
mod usage;

use json::Json;
use paugmeln::{Board, Sizes, TEXT_CHARACTERS};
use report::{Lines, Report, Shown};
use std::fs::File;
use std::io::{self, BufRead, Read, Write};
use std::process::ExitCode;
use text::Text;
use usage::Usage;

const USAGE: &str = "usage: run [--json] FILE < lines";

const REFUSED: u8 = 1;
const NO_ANSWER: u8 = 2;

fn main() -> ExitCode {
    let arguments: Vec<String> = std::env::args().skip(1).collect();
    let arguments: Vec<&str> = arguments.iter().map(String::as_str).collect();
    let done = match arguments[..] {
        ["--json", path] => run(path, &Json),
        [path] if path != "--json" => run(path, &Text),
        _ => Err(io::Error::other(USAGE)),
    };
    match done {
        Ok(true) => ExitCode::SUCCESS,
        Ok(false) => ExitCode::from(REFUSED),
        Err(error) => {
            eprintln!("run: no answer: {error}");
            ExitCode::from(NO_ANSWER)
        }
    }
}

/// Whether the file is accepted and every line taken.
fn run(path: &str, report: &dyn Report) -> io::Result<bool> {
    let text = rule_file(path).map_err(|error| io::Error::other(format!("{path}: {error}")))?;
    match Board::start(&text, Sizes::LARGEST) {
        Ok(board) => feed(board, report),
        Err(refusal) => {
            say(&report.refused(&refusal))?;
            Ok(false)
        }
    }
}

/// A file that is too long is read as far as that is seen.
fn rule_file(path: &str) -> io::Result<Vec<u8>> {
    let mut text = Vec::new();
    let most = TEXT_CHARACTERS as u64 + 1;
    File::open(path)?.take(most).read_to_end(&mut text)?;
    Ok(text)
}

fn feed(mut board: Board, report: &dyn Report) -> io::Result<bool> {
    let cells_stated = board.cells_stated();
    let mut usage = Usage::new(&board);
    let mut lines = Lines::default();
    say(&report.started(&shown(&board, cells_stated)))?;
    let mut input = io::stdin().lock();
    let mut line = Vec::new();
    while input.read_until(b'\n', &mut line)? > 0 {
        usage.note(&board, &line);
        let answer = board.line(&line);
        match answer {
            Ok(()) => lines.taken += 1,
            Err(_) => lines.refused += 1,
        }
        say(&report.line(lines.count(), answer, &shown(&board, cells_stated)))?;
        line.clear();
    }
    say(&report.ended(lines, &usage, &shown(&board, cells_stated)))?;
    Ok(lines.refused == 0)
}

fn shown(board: &Board, cells_stated: u32) -> Shown<'_> {
    Shown {
        board,
        cells_stated,
    }
}

/// Writes at once, so that somebody who types lines sees the answers.
fn say(part: &str) -> io::Result<()> {
    let mut out = io::stdout().lock();
    out.write_all(part.as_bytes())?;
    out.flush()
}
