//! The answers of the proved reader, and of the Rust one.

use evaluator::reader;

/// Number and frame by the proved reader, 0 and 0 for a text that it reads.
pub fn by_library(text: &[u8]) -> (u32, u32) {
    let answer = paugmeln::read(text);
    (answer.number, answer.frame)
}

/// The same by the Rust reader.
pub fn by_reference(text: &[u8]) -> (u32, u32) {
    match reader::read(text) {
        Ok(_) => (0, 0),
        Err(fault) => (fault.refusal.number(), fault.frame as u32),
    }
}

/// One line without its end.
pub fn report((number, frame): (u32, u32)) -> String {
    format!("read:{number},{frame}")
}
