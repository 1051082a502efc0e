//! What is written of a run.

use crate::usage::Usage;
use paugmeln::{Board, Refusal};

/// A board, and the most cells that it may keep.
pub struct Shown<'a> {
    pub board: &'a Board,
    pub cells_stated: u32,
}

impl Shown<'_> {
    /// `input` or `node`.
    pub fn kind(&self, channel: usize) -> &'static str {
        match channel < self.board.input_count() {
            true => "input",
            false => "node",
        }
    }
}

/// How many lines there were.
#[derive(Clone, Copy, Default)]
pub struct Lines {
    pub taken: usize,
    pub refused: usize,
}

impl Lines {
    pub fn count(&self) -> usize {
        self.taken + self.refused
    }
}

/// The parts of a report, each with its line ends.
pub trait Report {
    /// The file is not accepted.
    fn refused(&self, refusal: &Refusal) -> String;
    /// The file is started.
    fn started(&self, shown: &Shown) -> String;
    /// A line, counted from 1, is taken or refused.
    fn line(&self, number: usize, answer: Result<(), Refusal>, shown: &Shown) -> String;
    /// There are no more lines.
    fn ended(&self, lines: Lines, usage: &Usage, shown: &Shown) -> String;
}
