//! Whether lent words are a state as document 01 describes it for a file
//! (refusal 18).

use crate::limits::{FIELDS, LARGEST_SIZE};
use crate::state::{Cell, State, Tag};
use crate::syntax::{Field, File, SizedType};
use crate::value::{construction_size, fields_within};

/// Exactly the words of the board's cells are lent; `marks` is scratch of
/// at least one word a cell.
pub fn is_valid(file: &File, words: &[u32], cells: u32, marks: &mut [u32]) -> bool {
    let state = State::new(words);
    state.used() <= cells
        && (0..state.used()).all(|at| cell_is_valid(file, &state, at))
        && channels_are_valid(file, &state)
        && all_reached(file, &state, marks)
        && state.beyond().iter().all(|word| *word == 0)
}

/// A cell by itself, the cells below it being valid.
fn cell_is_valid(file: &File, state: &State<&[u32]>, at: u32) -> bool {
    let cell = state.cell(at);
    match Tag::of_word(cell.tag, file) {
        None => false,
        Some(Tag::Bool) => cell.content <= 1 && cell.fields == [0; FIELDS],
        Some(Tag::Int) => cell.fields == [0; FIELDS],
        Some(Tag::Construction {
            type_index,
            constructor,
        }) => construction_is_valid(file, state, at, type_index, constructor),
    }
}

fn construction_is_valid(
    file: &File,
    state: &State<&[u32]>,
    at: u32,
    type_index: usize,
    constructor: usize,
) -> bool {
    let cell = state.cell(at);
    let known = file.constructor(type_index, constructor);
    let (fields, unused) = cell.fields.split_at(known.fields.len());
    if fields.iter().any(|field| *field >= at) || unused.iter().any(|word| *word != 0) {
        return false;
    }
    let cells: Vec<Cell> = fields.iter().map(|field| state.cell(*field)).collect();
    let sizes: Vec<usize> = cells.iter().map(real_size).collect();
    let mut pairs = known.fields.iter().zip(&cells);
    let size = construction_size(known, &sizes);
    pairs.all(|(field, cell)| has_field_type(file, *field, type_index, cell))
        && fields_within(known, &sizes)
        && size <= LARGEST_SIZE
        && cell.content as usize == size
}

/// The size word of a valid construction, 0 of a Bool or Int.
fn real_size(cell: &Cell) -> usize {
    match cell.tag == Tag::Bool.word() || cell.tag == Tag::Int.word() {
        true => 0,
        false => cell.content as usize,
    }
}

fn has_field_type(file: &File, field: Field, owner: usize, cell: &Cell) -> bool {
    match field {
        Field::Bool => cell.tag == Tag::Bool.word(),
        Field::Int => cell.tag == Tag::Int.word(),
        Field::Own => is_of_type(file, cell, owner),
        Field::Named { type_index, .. } => is_of_type(file, cell, type_index),
    }
}

fn is_of_type(file: &File, cell: &Cell, wanted: usize) -> bool {
    match Tag::of_word(cell.tag, file) {
        Some(Tag::Construction { type_index, .. }) => type_index == wanted,
        _ => false,
    }
}

fn channels_are_valid(file: &File, state: &State<&[u32]>) -> bool {
    let (channels, unused) = state.channels().split_at(file.channel_count());
    let valid = |(channel, at): (usize, &u32)| {
        *at < state.used() && has_declared_type(file, file.declared(channel), &state.cell(*at))
    };
    channels.iter().enumerate().all(valid) && unused.iter().all(|word| *word == 0)
}

/// The declared type, and no size above the declaration.
fn has_declared_type(file: &File, declared: SizedType, cell: &Cell) -> bool {
    match declared {
        SizedType::Bool => cell.tag == Tag::Bool.word(),
        SizedType::Int => cell.tag == Tag::Int.word(),
        SizedType::Named { type_index, size } => {
            is_of_type(file, cell, type_index) && real_size(cell) <= size
        }
    }
}

fn all_reached(file: &File, state: &State<&[u32]>, marks: &mut [u32]) -> bool {
    mark_reached(file, state, marks);
    marks[..state.used() as usize].iter().all(|mark| *mark == 1)
}

/// Marks with 1 each cell that a channel reaches, the others with 0. Fields
/// are lower than their cell, so one pass from the highest cell down is enough.
pub fn mark_reached<W: AsRef<[u32]>>(file: &File, state: &State<W>, marks: &mut [u32]) {
    marks.fill(0);
    let channels = &state.channels()[..file.channel_count()];
    channels.iter().for_each(|at| marks[*at as usize] = 1);
    for at in (0..state.used()).rev() {
        if marks[at as usize] == 1 {
            mark_fields(file, &state.cell(at), marks);
        }
    }
}

fn mark_fields(file: &File, cell: &Cell, marks: &mut [u32]) {
    if let Some(Tag::Construction {
        type_index,
        constructor,
    }) = Tag::of_word(cell.tag, file)
    {
        let count = file.constructor(type_index, constructor).fields.len();
        for field in &cell.fields[..count] {
            marks[*field as usize] = 1;
        }
    }
}
