//! Writes the strict text of the rule file on standard input to standard output:
//!
//! ```text
//! strict < FILE
//! ```
//!
//! Exit status: 0 where it is written, 1 where the file is refused, with the line `REFUSE number frame 0 0 0` on standard error, 2
//! where there is no answer (an input that cannot be read, say).

use paugmeln::{Refusal, TEXT_CHARACTERS};
use std::fs::File;
use std::io::{self, Read, Write};
use std::os::fd::{AsFd, BorrowedFd};
use std::process::ExitCode;

const USAGE: &str = "usage: strict < FILE";

const REFUSED: u8 = 1;
const NO_ANSWER: u8 = 2;

fn main() -> ExitCode {
    let done = match std::env::args().len() {
        1 => strict(),
        _ => Err(io::Error::other(USAGE)),
    };
    match done {
        Ok(status) => status,
        Err(error) => {
            // Where this cannot be said either, the status says it.
            let _ = writeln!(io::stderr(), "strict: no answer: {error}");
            ExitCode::from(NO_ANSWER)
        }
    }
}

fn strict() -> io::Result<ExitCode> {
    match paugmeln::strict_text(&rule_file()?) {
        Ok(text) => {
            plain_file(io::stdout().as_fd())?.write_all(&text)?;
            Ok(ExitCode::SUCCESS)
        }
        Err(refusal) => {
            plain_file(io::stderr().as_fd())?.write_all(line(&refusal).as_bytes())?;
            Ok(ExitCode::from(REFUSED))
        }
    }
}

/// A text that is too long is read as far as that is seen.
fn rule_file() -> io::Result<Vec<u8>> {
    let mut text = Vec::new();
    let most = TEXT_CHARACTERS as u64 + 1;
    let input = plain_file(io::stdin().as_fd())?;
    input.take(most).read_to_end(&mut text)?;
    Ok(text)
}

/// The standard streams take one that may not be read or written for an empty one; a file says so.
fn plain_file(stream: BorrowedFd) -> io::Result<File> {
    Ok(File::from(stream.try_clone_to_owned()?))
}

/// The line that `./check` writes for such a refusal.
fn line(refusal: &Refusal) -> String {
    let (number, frame, bounds) = (refusal.number, refusal.frame, refusal.bounds);
    let (heap, environment, stack) = (bounds.heap, bounds.environment, bounds.stack);
    format!("REFUSE {number} {frame} {heap} {environment} {stack}\n")
}
