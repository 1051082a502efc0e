//! Texts typed in an ordinary editor (document 02, R-1): what the reader takes
//! beside the strict text, what it does not, and cases with such texts.

pub mod habits;
pub mod mixture;
pub mod slips;

pub use habits::{habits, typed, Habit};
pub use mixture::TypedMixture;
pub use slips::{slip, Slip};

/// The lines of a text with their ends.
fn lines(text: &[u8]) -> Vec<Vec<u8>> {
    let lines = text.split_inclusive(|character| *character == b'\n');
    lines.map(<[u8]>::to_vec).collect()
}

/// A line that is empty or starts with a semicolon.
fn is_extra(line: &[u8]) -> bool {
    matches!(line, b"\n" | b"\r\n" | [b';', ..])
}
