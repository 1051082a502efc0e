//! A case: what is lent, and what is asked.

use evaluator::answer::Board;

#[derive(Clone, Debug, PartialEq, Eq)]
pub enum Case {
    /// Check, start, then the lines, each on the state the last one left.
    Run {
        board: Board,
        text: Vec<u8>,
        lines: Vec<Vec<u8>>,
    },
    /// One iteration on the words given.
    Iteration {
        board: Board,
        text: Vec<u8>,
        state: Vec<u32>,
        line: Vec<u8>,
    },
    /// The strict text, into a buffer of so many bytes.
    Write { room: usize, text: Vec<u8> },
}

impl Case {
    pub fn text(&self) -> &[u8] {
        match self {
            Case::Run { text, .. } | Case::Iteration { text, .. } | Case::Write { text, .. } => {
                text
            }
        }
    }

    /// The same case with another text.
    pub fn with_text(mut self, other: Vec<u8>) -> Case {
        match &mut self {
            Case::Run { text, .. } | Case::Iteration { text, .. } | Case::Write { text, .. } => {
                *text = other;
            }
        }
        self
    }
}
