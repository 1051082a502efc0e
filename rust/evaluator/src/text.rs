//! Lines of hexadecimal pairs (refusals 1 and 2): those of a rule file as an
//! ordinary editor leaves them (document 02, R-1), and the strict ones of
//! document 01, which an input line keeps and the writer gives.

use crate::answer::{Fault, Refusal};
use crate::limits::TEXT_CHARACTERS;

const LINE_FEED: u8 = b'\n';
const CARRIAGE_RETURN: u8 = b'\r';
const SPACE: u8 = b' ';
const SEMICOLON: u8 = b';';

/// A line of a rule file without its end.
enum Line {
    /// Empty, or it starts with a semicolon.
    Extra,
    Frame(Vec<u8>),
}

/// The frames of a rule file as bytes. A bad line is named as the frame that
/// would be the next: extra lines do not count.
pub fn frames(text: &[u8]) -> Result<Vec<Vec<u8>>, Fault> {
    if text.len() > TEXT_CHARACTERS {
        return Err(Refusal::TextLength.in_frame(0));
    }
    let mut frames = Vec::new();
    for ended in text.split_inclusive(|byte| *byte == LINE_FEED) {
        match line(ended).ok_or(Refusal::Line.in_frame(frames.len() + 1))? {
            Line::Extra => {}
            Line::Frame(bytes) => frames.push(bytes),
        }
    }
    Ok(frames)
}

/// One line of a rule file. A CR belongs to its end directly before the LF,
/// once; a line without LF is bad, whatever it holds.
fn line(ended: &[u8]) -> Option<Line> {
    let characters = ended.strip_suffix(&[LINE_FEED])?;
    let characters = characters
        .strip_suffix(&[CARRIAGE_RETURN])
        .unwrap_or(characters);
    match characters.first() {
        None | Some(&SEMICOLON) => Some(Line::Extra),
        Some(_) => spaced_pairs(characters).map(Line::Frame),
    }
}

/// Pairs in either case with any number of spaces between two of them, none
/// before the first or after the last.
fn spaced_pairs(characters: &[u8]) -> Option<Vec<u8>> {
    let ends = [characters.first()?, characters.last()?];
    if ends.contains(&&SPACE) {
        return None;
    }
    // A space inside a pair leaves a part of odd length.
    let mut bytes = Vec::new();
    for part in characters.split(|character| *character == SPACE) {
        bytes.extend(pairs(part, digit)?);
    }
    Some(bytes)
}

/// One strict line with its LF as bytes: not empty, even, upper-case
/// hexadecimal.
pub fn strict_frame(line: &[u8]) -> Option<Vec<u8>> {
    let digits = line.strip_suffix(&[LINE_FEED])?;
    match digits.is_empty() {
        true => None,
        false => pairs(digits, strict_digit),
    }
}

/// The strict text of document 01 for these frames.
pub fn strict_text(frames: &[Vec<u8>]) -> Vec<u8> {
    let mut text = Vec::new();
    for frame in frames {
        text.extend(frame.iter().flat_map(|byte| strict_pair(*byte)));
        text.push(LINE_FEED);
    }
    text
}

fn strict_pair(byte: u8) -> [u8; 2] {
    const DIGITS: &[u8; 16] = b"0123456789ABCDEF";
    [byte / 16, byte % 16].map(|value| DIGITS[usize::from(value)])
}

fn pairs(digits: &[u8], value: fn(u8) -> Option<u8>) -> Option<Vec<u8>> {
    if !digits.len().is_multiple_of(2) {
        return None;
    }
    let pair = |pair: &[u8]| Some(16 * value(pair[0])? + value(pair[1])?);
    digits.chunks_exact(2).map(pair).collect()
}

fn digit(character: u8) -> Option<u8> {
    strict_digit(character.to_ascii_uppercase())
}

fn strict_digit(character: u8) -> Option<u8> {
    match character {
        b'0'..=b'9' => Some(character - b'0'),
        b'A'..=b'F' => Some(character - b'A' + 10),
        _ => None,
    }
}
