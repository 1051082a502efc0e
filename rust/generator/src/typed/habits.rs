//! From the strict text to one with the same frames.

use super::lines;
use crate::random::Random;
use evaluator::text::strict_frame;

/// What an editor, or who uses it, does to a strict text.
#[derive(Clone, Copy, Debug, PartialEq, Eq)]
pub enum Habit {
    LowerCase,
    Spaces,
    CarriageReturns,
    EmptyLines,
    Comments,
}

impl Habit {
    pub const ALL: [Habit; 5] = [
        Habit::LowerCase,
        Habit::Spaces,
        Habit::CarriageReturns,
        Habit::EmptyLines,
        Habit::Comments,
    ];
}

/// Some of the habits, sometimes none.
pub fn habits(random: &mut Random) -> Vec<Habit> {
    let mut some = Habit::ALL.to_vec();
    some.retain(|_| random.one_in(2));
    some
}

/// A text with the frames of a strict one. Lines that are not strict stay as
/// they are.
pub fn typed(random: &mut Random, strict: &[u8], habits: &[Habit]) -> Vec<u8> {
    let mut text = Vec::new();
    for line in lines(strict) {
        add_extra_lines(random, habits, &mut text);
        match strict_frame(&line) {
            Some(frame) => {
                text.extend(respelled(random, habits, &frame).bytes());
                text.extend(line_end(random, habits));
            }
            None => text.extend(line),
        }
    }
    // Behind a line without its LF an extra one would go on with it.
    if text.last().is_none_or(|last| *last == b'\n') {
        add_extra_lines(random, habits, &mut text);
    }
    text
}

fn add_extra_lines(random: &mut Random, habits: &[Habit], text: &mut Vec<u8>) {
    if habits.contains(&Habit::EmptyLines) && random.one_in(3) {
        text.extend(line_end(random, habits));
    }
    if habits.contains(&Habit::Comments) && random.one_in(3) {
        text.push(b';');
        let length = random.below(20);
        text.extend((0..length).map(|_| comment_byte(random)));
        text.extend(line_end(random, habits));
    }
}

/// Any byte but LF, most often one that stands in a frame too.
pub fn comment_byte(random: &mut Random) -> u8 {
    let byte = match random.one_in(3) {
        true => random.number() as u8,
        false => *random.pick(b"; 0aF\r\t\0"),
    };
    match byte {
        b'\n' => b';',
        other => other,
    }
}

fn line_end(random: &mut Random, habits: &[Habit]) -> &'static [u8] {
    match habits.contains(&Habit::CarriageReturns) && !random.one_in(3) {
        true => b"\r\n",
        false => b"\n",
    }
}

/// The pairs of a frame, some in lower case, some with spaces before them.
fn respelled(random: &mut Random, habits: &[Habit], frame: &[u8]) -> String {
    let mut line = String::new();
    for byte in frame {
        if habits.contains(&Habit::Spaces) && !line.is_empty() && random.one_in(2) {
            line.push_str(&" ".repeat(random.between(1, 3)));
        }
        for digit in format!("{byte:02X}").chars() {
            let lower = habits.contains(&Habit::LowerCase) && random.one_in(2);
            line.push(match lower {
                true => digit.to_ascii_lowercase(),
                false => digit,
            });
        }
    }
    line
}
