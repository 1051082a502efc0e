//! Answers of the library, and refusals in words.

use std::error::Error;
use std::fmt;

/// A number (0 where all is well), a frame (0 where none is named) and heap, environment and stack needed, which are 0
/// except on acceptance by checker or start and in 15 to 17.
#[repr(C)]
#[derive(Clone, Copy, Debug, PartialEq, Eq)]
pub struct Answer {
    pub number: u32,
    pub frame: u32,
    pub heap: u32,
    pub environment: u32,
    pub stack: u32,
}

/// The three numbers of a file: cells, slots and calls that a board needs at most, whatever the inputs.
#[derive(Clone, Copy, Debug, PartialEq, Eq)]
pub struct Bounds {
    pub heap: u32,
    pub environment: u32,
    pub stack: u32,
}

/// Why a rule file or a line is not taken.
#[derive(Clone, Copy, Debug, PartialEq, Eq)]
pub struct Refusal {
    /// 1 to 25.
    pub number: u32,
    /// The frame of the rule file, from 1, counted without its extra lines; 0 where none is named.
    pub frame: u32,
    /// What the file needs, in 15 to 17; else 0.
    pub bounds: Bounds,
}

impl Answer {
    pub fn bounds(&self) -> Bounds {
        Bounds {
            heap: self.heap,
            environment: self.environment,
            stack: self.stack,
        }
    }

    /// The bounds where the number is 0, else the refusal.
    pub fn result(&self) -> Result<Bounds, Refusal> {
        match self.number {
            0 => Ok(self.bounds()),
            number => Err(Refusal {
                number,
                frame: self.frame,
                bounds: self.bounds(),
            }),
        }
    }
}

/// When each number is answered, from 1.
const SENTENCES: [&str; 25] = [
    "the text is longer than 16,384 characters",
    "a line is odd, not hexadecimal, spaced other than between pairs, or without its line feed",
    "a frame's kind is unknown, out of order or one too many; or there is no node",
    "the bytes of a frame end early or go on",
    "a code is outside its set",
    "an index names nothing that is allowed there",
    "a count, a size, a scope or the nesting is over its limit or below its least",
    "a type has no constructor without a field of the type itself",
    "plain types disagree, or an initial value has another form",
    "a type's size is outside 1 to 64",
    "sizes disagree, or an adjustment lowers one",
    "a condition of a called function fails",
    "the measure of a self-call does not fall",
    "there would be a 1,025th instance",
    "heap needed is above the board's",
    "environment needed is above the board's",
    "stack needed is above the board's",
    "the board is over its maximum, a buffer is too short, or the state is not one of this file",
    "the input line is wrong",
    "heap is spent",
    "environment is spent",
    "stack is spent",
    "a value is too large",
    "the buffer is shorter than the strict text",
    "a node reads itself by 13, directly or through others",
];

/// The refusals that say what the file needs.
const WITH_BOUNDS: std::ops::RangeInclusive<u32> = 15..=17;

impl Refusal {
    /// When this number is answered.
    pub fn sentence(&self) -> &'static str {
        let known = (self.number as usize).checked_sub(1);
        let sentence = known.and_then(|at| SENTENCES.get(at));
        sentence.copied().unwrap_or("an unknown number")
    }
}

impl fmt::Display for Refusal {
    fn fmt(&self, out: &mut fmt::Formatter) -> fmt::Result {
        write!(out, "refusal {}", self.number)?;
        if self.frame != 0 {
            write!(out, " in frame {} of the rule file", self.frame)?;
        }
        write!(out, ": {}", self.sentence())?;
        match WITH_BOUNDS.contains(&self.number) {
            true => write!(out, " ({})", self.bounds),
            false => Ok(()),
        }
    }
}

impl Error for Refusal {}

impl fmt::Display for Bounds {
    fn fmt(&self, out: &mut fmt::Formatter) -> fmt::Result {
        let (heap, environment, stack) = (self.heap, self.environment, self.stack);
        write!(out, "heap {heap}, environment {environment}, stack {stack}")
    }
}

#[cfg(test)]
mod tests {
    use super::*;

    fn shown(number: u32, frame: u32) -> String {
        let bounds = Bounds {
            heap: 25,
            environment: 18,
            stack: 5,
        };
        Refusal {
            number,
            frame,
            bounds,
        }
        .to_string()
    }

    #[test]
    fn a_refusal_says_what_it_knows() {
        assert_eq!(shown(19, 0), "refusal 19: the input line is wrong");
        assert_eq!(
            shown(5, 3),
            "refusal 5 in frame 3 of the rule file: a code is outside its set"
        );
        assert_eq!(
            shown(15, 0),
            "refusal 15: heap needed is above the board's (heap 25, environment 18, stack 5)"
        );
        assert_eq!(
            shown(24, 0),
            "refusal 24: the buffer is shorter than the strict text"
        );
        assert_eq!(shown(26, 0), "refusal 26: an unknown number");
    }
}
