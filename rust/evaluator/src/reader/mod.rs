//! The reader: from text to syntax (refusals 1 to 8).
//!
//! Text is judged as a whole, then frames in file order, bytes left to right.

mod expressions;
mod frames;

use crate::answer::{Fault, Refusal};
use crate::codes::kind;
use crate::limits::{FUNCTIONS, INPUTS, NODES, TYPES};
use crate::syntax::File;
use crate::text;
use frames::FrameReader;

pub fn read(text: &[u8]) -> Result<File, Fault> {
    let frames = text::frames(text)?;
    let channels = frames.iter().filter(|frame| is_channel(frame)).count();
    let mut reader = FrameReader::new(channels);
    let mut last_kind = kind::TYPE;
    for (before, frame) in frames.iter().enumerate() {
        let at_frame = |refusal: Refusal| refusal.in_frame(before + 1);
        last_kind = admitted_kind(frame[0], last_kind, reader.file()).map_err(at_frame)?;
        reader.read(last_kind, &frame[1..]).map_err(at_frame)?;
    }
    let file = reader.into_file();
    match file.nodes.is_empty() {
        true => Err(Refusal::Kind.in_frame(frames.len() + 1)),
        false => Ok(file),
    }
}

/// `13` and `14` count every line that begins with 03 or 04, wherever it stands.
fn is_channel(frame: &[u8]) -> bool {
    matches!(frame[0], kind::INPUT | kind::NODE)
}

/// Refuses a kind that is unknown, out of order or one too many.
fn admitted_kind(found: u8, last: u8, file: &File) -> Result<u8, Refusal> {
    let (count, most) = match found {
        kind::TYPE => (file.types.len(), TYPES),
        kind::FUNCTION => (file.functions.len(), FUNCTIONS),
        kind::INPUT => (file.inputs.len(), INPUTS),
        kind::NODE => (file.nodes.len(), NODES),
        _ => return Err(Refusal::Kind),
    };
    match found >= last && count < most {
        true => Ok(found),
        false => Err(Refusal::Kind),
    }
}
