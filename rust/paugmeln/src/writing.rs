//! The proved writer of the strict text.

use crate::answer::{Answer, Refusal};
use crate::sizes::TEXT_CHARACTERS;

extern "C" {
    fn paugmeln_write(
        text: *const u8,
        text_length: usize,
        buffer: *mut u8,
        buffer_length: usize,
    ) -> Answer;
}

/// Writes the strict text of a rule file: its frames in upper-case pairs, one a line, and nothing else.
///
/// The answer is the reader's as far as refusal 8, then 24 where the buffer is shorter than the strict text, which is never
/// longer than the text. What the buffer holds before is not looked at. On acceptance it holds the strict text, up to its
/// last line feed, and 0 behind it; on refusal it is 0 throughout. The bounds are 0.
///
/// ```
/// let mut buffer = [0xFF; 30];
/// let answer = paugmeln::write(b"; a node\r\n04 00 10 00 10 01\r\n", &mut buffer);
/// assert_eq!(answer.number, 0);
/// assert_eq!(&buffer[..13], b"040010001001\n");
/// assert_eq!(buffer[13..], [0; 17]);
/// ```
pub fn write(text: &[u8], buffer: &mut [u8]) -> Answer {
    // SAFETY: the text is lent for reading and the buffer for reading and writing, each with its length. The two cannot
    // overlap, and neither is kept.
    unsafe { paugmeln_write(text.as_ptr(), text.len(), buffer.as_mut_ptr(), buffer.len()) }
}

/// The strict text of a rule file, as [`write()`] gives it.
///
/// Two files have the same strict text exactly where their frames are the same, and that of a strict text is itself:
///
/// ```
/// # fn main() -> Result<(), Box<dyn std::error::Error>> {
/// let text = std::fs::read("../../examples/accumulate.rules")?;
/// let strict = paugmeln::strict_text(&text)?;
/// assert_eq!(strict, b"03011100000000\n04011100000000170014011300\n");
/// assert_eq!(paugmeln::strict_text(&strict)?, strict);
/// # Ok(())
/// # }
/// ```
pub fn strict_text(text: &[u8]) -> Result<Vec<u8>, Refusal> {
    // A longer text is refused whatever is lent.
    let mut buffer = vec![0; text.len().min(TEXT_CHARACTERS)];
    write(text, &mut buffer).result()?;
    let written = buffer.iter().rposition(|byte| *byte == b'\n');
    buffer.truncate(written.map_or(0, |last| last + 1));
    Ok(buffer)
}
