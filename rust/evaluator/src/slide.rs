//! After an iteration the reached cells slide down in order of creation.

use crate::state::{Cell, State, Tag};
use crate::syntax::File;
use crate::validity::mark_reached;

/// Slides the state's cells. Each reached cell is moved once, however many
/// cells share it, and every word beyond the kept cells becomes 0.
pub fn slide(file: &File, state: &mut State<Vec<u32>>, scratch: &mut [u32]) {
    mark_reached(file, state, scratch);
    let old = state.clone();
    state.clear();
    move_cells(file, &old, state, scratch);
    let channels = &old.channels()[..file.channel_count()];
    let numbered = channels.iter().enumerate();
    numbered.for_each(|(channel, at)| state.set_channel(channel, scratch[*at as usize]));
}

/// Moves the marked cells; each mark becomes the cell's new number.
fn move_cells(
    file: &File,
    old: &State<Vec<u32>>,
    state: &mut State<Vec<u32>>,
    scratch: &mut [u32],
) {
    for at in 0..old.used() {
        let kept = state.used();
        if scratch[at as usize] == 1 {
            state.set_cell(kept, moved(file, old.cell(at), scratch));
            state.set_used(kept + 1);
            scratch[at as usize] = kept;
        }
    }
}

/// The cell with the new numbers of its fields, which have moved before it.
fn moved(file: &File, mut cell: Cell, numbers: &[u32]) -> Cell {
    if let Some(Tag::Construction {
        type_index,
        constructor,
    }) = Tag::of_word(cell.tag, file)
    {
        let count = file.constructor(type_index, constructor).fields.len();
        for field in &mut cell.fields[..count] {
            *field = numbers[*field as usize];
        }
    }
    cell
}
