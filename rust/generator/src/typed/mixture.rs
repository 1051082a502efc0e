//! A mixture of cases in which typed texts are common.

use super::{habits, slip, typed, Slip};
use crate::case::Case;
use crate::mixture::Mixture;
use crate::random::Random;
use evaluator::limits::TEXT_CHARACTERS;

/// One text in so many has a slip.
const SLIPS_EVERY: usize = 4;

/// One text in so many is as long as may be, or one character longer.
const LONG_EVERY: usize = 60;

/// An endless mixture: the cases of the plain one with their texts typed, and
/// strict texts to be written.
pub struct TypedMixture {
    random: Random,
    plain: Mixture,
}

impl TypedMixture {
    pub fn new(seed: u64) -> TypedMixture {
        TypedMixture {
            random: Random::new(!seed),
            plain: Mixture::new(seed),
        }
    }

    pub fn next_case(&mut self) -> Case {
        let case = self.plain.next_case();
        let strict = case.text().len();
        let text = self.text(case.text());
        match self.random.one_in(2) {
            true => case.with_text(text),
            false => Case::Write {
                room: room(&mut self.random, strict),
                text,
            },
        }
    }

    fn text(&mut self, strict: &[u8]) -> Vec<u8> {
        let some = habits(&mut self.random);
        let mut text = typed(&mut self.random, strict, &some);
        if self.random.one_in(SLIPS_EVERY) {
            let made = *self.random.pick(&Slip::ALL);
            slip(&mut self.random, &mut text, made);
        }
        if self.random.one_in(LONG_EVERY) {
            text = lengthened(&text, TEXT_CHARACTERS + self.random.below(2));
        }
        text
    }
}

/// A text of so many characters, by a comment before it; a longer one stays.
pub fn lengthened(text: &[u8], length: usize) -> Vec<u8> {
    let Some(more) = length.checked_sub(text.len() + b";\n".len()) else {
        return text.to_vec();
    };
    [b";", &vec![b'-'; more][..], b"\n", text].concat()
}

/// The length of a buffer for a strict text: none, shorter, equal or longer.
pub fn room(random: &mut Random, strict: usize) -> usize {
    match random.below(8) {
        0 => 0,
        1 => random.below(strict + 1),
        2 => strict.saturating_sub(1),
        3 => strict + random.between(1, 40),
        _ => strict + random.below(2),
    }
}
