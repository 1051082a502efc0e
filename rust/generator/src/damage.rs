//! Damage to frames byte by byte, to texts and lines character by character,
//! and to states word by word.

use crate::random::Random;
use crate::values::random_value;
use crate::writer::{input_bytes, line_of};
use evaluator::codes::{expression, kind, size};
use evaluator::limits::{
    CELL_WORDS, HEADER_WORDS, LARGEST_SIZE, NESTING, PARAMETERS, SIZE_VARIABLES,
};
use evaluator::syntax::{Field, File, Input, SizedType};
use evaluator::value::Tree;
use std::rc::Rc;

/// One change to the frames of a file.
pub fn damage_frames(random: &mut Random, frames: &mut Vec<Vec<u8>>) {
    let at = random.below(frames.len());
    match random.below(12) {
        0 => insert_byte(random, &mut frames[at]),
        1 => remove_byte(random, &mut frames[at]),
        2 => {
            let cut = random.below(frames[at].len()).max(1);
            frames[at].truncate(cut);
        }
        3 => damage_order(random, frames),
        _ => change_byte(random, &mut frames[at]),
    }
}

fn damage_order(random: &mut Random, frames: &mut Vec<Vec<u8>>) {
    let (at, to) = (random.below(frames.len()), random.below(frames.len()));
    match random.below(3) {
        0 => frames.swap(at, to),
        1 => frames.insert(to, frames[at].clone()),
        _ if frames.len() > 1 => drop(frames.remove(at)),
        _ => frames[at].push(0),
    }
}

fn change_byte(random: &mut Random, bytes: &mut [u8]) {
    let at = random.below(bytes.len());
    bytes[at] = match random.below(3) {
        0 => bytes[at].wrapping_add(1),
        1 => bytes[at].wrapping_sub(1),
        _ => telling_byte(random),
    };
}

fn insert_byte(random: &mut Random, bytes: &mut Vec<u8>) {
    let at = random.between(1, bytes.len());
    let byte = telling_byte(random);
    bytes.insert(at, byte);
}

fn remove_byte(random: &mut Random, bytes: &mut Vec<u8>) {
    let at = random.below(bytes.len());
    if bytes.len() > 1 {
        bytes.remove(at);
    }
}

/// A byte that is likely to mean something: a code, an index or a limit.
fn telling_byte(random: &mut Random) -> u8 {
    let limits = [LARGEST_SIZE, NESTING, PARAMETERS, SIZE_VARIABLES];
    match random.below(8) {
        0 => random.number() as u8,
        1 => *random.pick(&limits) as u8 + random.below(2) as u8,
        2 | 3 => random.between(expression::BOOL.into(), expression::FIT.into()) as u8,
        _ => random.below(kind::LINE.into()) as u8,
    }
}

/// One change to the characters of a text or line.
pub fn damage_characters(random: &mut Random, text: &mut Vec<u8>) {
    if text.is_empty() {
        text.push(b'\n');
        return;
    }
    let at = random.below(text.len());
    match random.below(5) {
        0 => drop(text.remove(at)),
        1 => drop(text.pop()),
        2 => text.insert(at, *random.pick(b"\n0A\r ")),
        3 => text.push(*random.pick(b"\n0a")),
        _ => text[at] = *random.pick(b"\nG0aF-\0"),
    }
}

/// A line that the file does not allow, or seldom does.
pub fn damaged_line(random: &mut Random, file: &File) -> Vec<u8> {
    let mut bytes = input_bytes(&oversized_values(random, file, 2));
    match random.below(8) {
        0 => bytes[0] = telling_byte(random),
        1 => change_byte(random, &mut bytes),
        2 => insert_byte(random, &mut bytes),
        3 => remove_byte(random, &mut bytes),
        4 => bytes = adjusted(&bytes),
        5 => {
            let mut line = line_of(&bytes);
            damage_characters(random, &mut line);
            return line;
        }
        _ => return line_of(&input_bytes(&oversized_values(random, file, 8))),
    }
    line_of(&bytes)
}

/// The line with an adj before its first value.
fn adjusted(bytes: &[u8]) -> Vec<u8> {
    let mut line = vec![kind::LINE, expression::ADJUST, size::CONSTANT, 1];
    line.extend_from_slice(&bytes[1..]);
    line
}

/// Values of the inputs' types that may be larger than declared.
fn oversized_values(random: &mut Random, file: &File, more: usize) -> Vec<Rc<Tree>> {
    let value = |input: &Input| {
        let wanted = match input.declared {
            SizedType::Named { type_index, size } => SizedType::Named {
                type_index,
                size: size + random.below(more),
            },
            SizedType::Bool | SizedType::Int => input.declared,
        };
        random_value(random, &file.types, wanted)
    };
    file.inputs.iter().map(value).collect()
}

/// Lowers a declared size or a field's k, so that values become too large.
pub fn lower_size(random: &mut Random, file: &mut File) {
    let fields = file
        .types
        .iter_mut()
        .flat_map(|known| &mut known.constructors);
    let fields = fields.flat_map(|known| &mut known.fields);
    let fields = fields.filter_map(|field| match field {
        Field::Named { size, .. } => Some(size),
        Field::Bool | Field::Int | Field::Own => None,
    });
    let nodes = file.nodes.iter_mut().map(|node| &mut node.declared);
    let nodes = nodes.filter_map(|declared| match declared {
        SizedType::Named { size, .. } => Some(size),
        SizedType::Bool | SizedType::Int => None,
    });
    let mut sizes: Vec<&mut usize> = fields.chain(nodes).collect();
    if sizes.is_empty() {
        return;
    }
    let lowered = random.below(sizes.len());
    *sizes[lowered] = random.between(1, *sizes[lowered]);
}

/// One change to the words of a state.
pub fn damage_state(random: &mut Random, words: &mut Vec<u32>) {
    // The words may be damaged already.
    let lent = words.len().saturating_sub(HEADER_WORDS) / CELL_WORDS;
    let used = (words[0] as usize).min(lent);
    let filled = HEADER_WORDS + CELL_WORDS * used;
    let at = random.below(filled);
    match random.below(10) {
        0 => words[0] = random_word(random, words[0]),
        1 => drop(words.pop()),
        2 => words.push(random.number() as u32),
        3 => {
            let anywhere = random.below(words.len());
            words[anywhere] = random_word(random, words[anywhere]);
        }
        4 => swap_cells(random, words, used),
        _ => words[at] = random_word(random, words[at]),
    }
}

fn random_word(random: &mut Random, old: u32) -> u32 {
    match random.below(5) {
        0 => random.number() as u32,
        1 => 1 << random.below(32),
        2 => random.below(300) as u32,
        3 => old.wrapping_sub(1),
        _ => old.wrapping_add(1),
    }
}

/// Exchanges two cells without renumbering what names them.
fn swap_cells(random: &mut Random, words: &mut [u32], used: usize) {
    if used < 2 {
        return;
    }
    let start = |cell: usize| HEADER_WORDS + CELL_WORDS * cell;
    let (one, other) = (start(random.below(used)), start(random.below(used)));
    for word in 0..CELL_WORDS {
        words.swap(one + word, other + word);
    }
}
