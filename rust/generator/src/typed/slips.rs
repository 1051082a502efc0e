//! Texts with a line that the reader refuses with 2.

use super::habits::comment_byte;
use super::{is_extra, lines};
use crate::random::Random;

/// What is wrong with a line.
#[derive(Clone, Copy, Debug, PartialEq, Eq)]
pub enum Slip {
    SpaceInsidePair,
    SpaceBeforeFirst,
    SpaceBehindLast,
    Tab,
    /// CR elsewhere than directly before LF.
    ReturnAlone,
    ReturnTwice,
    /// Elsewhere than at the start of a line.
    Semicolon,
    OddDigits,
    NotHexadecimal,
    SpacesOnly,
    /// The last frame without its LF.
    FrameWithoutFeed,
    /// A last line that starts with a semicolon, or is a CR, without its LF.
    ExtraWithoutFeed,
}

impl Slip {
    pub const ALL: [Slip; 12] = [
        Slip::SpaceInsidePair,
        Slip::SpaceBeforeFirst,
        Slip::SpaceBehindLast,
        Slip::Tab,
        Slip::ReturnAlone,
        Slip::ReturnTwice,
        Slip::Semicolon,
        Slip::OddDigits,
        Slip::NotHexadecimal,
        Slip::SpacesOnly,
        Slip::FrameWithoutFeed,
        Slip::ExtraWithoutFeed,
    ];
}

/// Makes a slip in a text whose lines are as the reader takes them; gives the
/// frame that 2 then names.
pub fn slip(random: &mut Random, text: &mut Vec<u8>, made: Slip) -> usize {
    let mut all = lines(text);
    let at = match made {
        Slip::SpacesOnly => insert_spaces(random, &mut all),
        Slip::ExtraWithoutFeed => append_unfinished(random, &mut all),
        Slip::FrameWithoutFeed => unfinish_last_frame(&mut all),
        _ => damage_some_frame(random, &mut all, made),
    };
    let before = all[..at].iter().filter(|line| !is_extra(line)).count();
    *text = all.concat();
    before + 1
}

fn insert_spaces(random: &mut Random, all: &mut Vec<Vec<u8>>) -> usize {
    let at = random.below(all.len() + 1);
    let end = random.pick(&["\n", "\r\n"]);
    let line = " ".repeat(random.between(1, 3)) + end;
    all.insert(at, line.into_bytes());
    at
}

fn append_unfinished(random: &mut Random, all: &mut Vec<Vec<u8>>) -> usize {
    let mut line = vec![*random.pick(b";\r")];
    if line == b";" {
        line.extend((0..random.below(5)).map(|_| comment_byte(random)));
    }
    all.push(line);
    all.len() - 1
}

/// The places of the lines that have a pair.
fn frame_places(all: &[Vec<u8>]) -> Vec<usize> {
    let is_frame = |line: &[u8]| {
        let digits = line
            .iter()
            .filter(|character| character.is_ascii_hexdigit());
        !is_extra(line) && digits.count() >= 2
    };
    (0..all.len()).filter(|at| is_frame(&all[*at])).collect()
}

/// Lines behind the last frame are left out, so that it ends the text.
fn unfinish_last_frame(all: &mut Vec<Vec<u8>>) -> usize {
    match frame_places(all).last() {
        None => all.push(b"00".to_vec()),
        Some(last) => {
            all.truncate(last + 1);
            all[*last].pop();
        }
    }
    all.len() - 1
}

fn damage_some_frame(random: &mut Random, all: &mut Vec<Vec<u8>>, made: Slip) -> usize {
    if frame_places(all).is_empty() {
        all.push(b"00\n".to_vec());
    }
    let at = *random.pick(&frame_places(all));
    let line = &mut all[at];
    let ended = line.len();
    let length = line.trim_ascii_end().len();
    let digit = digit_place(random, &line[..length]);
    match made {
        Slip::SpaceInsidePair => line.insert(inside_pair(random, line), b' '),
        Slip::SpaceBeforeFirst => line.insert(0, b' '),
        Slip::SpaceBehindLast => line.insert(length, b' '),
        Slip::Tab => line.insert(random.below(length + 1), b'\t'),
        Slip::ReturnAlone => line.insert(random.below(length), b'\r'),
        Slip::ReturnTwice => drop(line.splice(length..ended, *b"\r\r\n")),
        Slip::Semicolon => line.insert(random.between(1, length), b';'),
        Slip::OddDigits => drop(line.remove(digit)),
        _ => line[digit] = *random.pick(b"Gg@`/:x-\0\xC4"),
    }
    at
}

/// The place of a digit.
fn digit_place(random: &mut Random, line: &[u8]) -> usize {
    let places = (0..line.len()).filter(|at| line[*at] != b' ');
    *random.pick(&places.collect::<Vec<usize>>())
}

/// The place of the second digit of a pair.
fn inside_pair(random: &mut Random, line: &[u8]) -> usize {
    let places = (0..line.len()).filter(|at| line[*at].is_ascii_hexdigit());
    *random.pick(&places.skip(1).step_by(2).collect::<Vec<usize>>())
}
