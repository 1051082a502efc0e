//! An input line: `05` and one value an input (refusal 19).

use crate::codes::{expression, kind};
use crate::cursor::Cursor;
use crate::syntax::{Constructor, Field, File, Input, SizedType};
use crate::text;
use crate::value::{construction_size, Tree};
use std::rc::Rc;

/// The inputs' values, none where the line is not allowed for this file.
pub fn read(file: &File, line: &[u8]) -> Option<Vec<Rc<Tree>>> {
    let bytes = text::strict_frame(line)?;
    let mut cursor = Cursor::new(&bytes);
    if cursor.byte().ok()? != kind::LINE {
        return None;
    }
    let read = |input: &Input| value(file, &mut cursor, input.declared);
    let values: Option<Vec<_>> = file.inputs.iter().map(read).collect();
    cursor.end().ok()?;
    values
}

/// A value of the wanted type, no size in it above the declaration or field k.
fn value(file: &File, cursor: &mut Cursor, wanted: SizedType) -> Option<Rc<Tree>> {
    let code = cursor.byte().ok()?;
    let tree = match (wanted, code) {
        (SizedType::Bool, expression::BOOL) => Tree::Bool(cursor.bool().ok()?),
        (SizedType::Int, expression::INT) => Tree::Int(cursor.int().ok()?),
        (SizedType::Named { type_index, size }, expression::CONSTRUCTION) => {
            construction(file, cursor, type_index, size)?
        }
        _ => return None,
    };
    Some(Rc::new(tree))
}

fn construction(
    file: &File,
    cursor: &mut Cursor,
    type_index: usize,
    largest: usize,
) -> Option<Tree> {
    if usize::from(cursor.byte().ok()?) != type_index {
        return None;
    }
    let constructors = &file.types[type_index].constructors;
    let constructor = cursor.index(constructors.len()).ok()?;
    let known = &constructors[constructor];
    let fields = fields(file, cursor, known, type_index, largest)?;
    let sizes: Vec<usize> = fields.iter().map(|field| field.size()).collect();
    let size = construction_size(known, &sizes);
    (size <= largest).then_some(Tree::Construction {
        type_index,
        constructor,
        size,
        fields,
    })
}

fn fields(
    file: &File,
    cursor: &mut Cursor,
    known: &Constructor,
    owner: usize,
    largest: usize,
) -> Option<Vec<Rc<Tree>>> {
    // An own-type field is smaller than the whole, which also ends the reading
    // of a line that nests without end.
    let own_size = largest.checked_sub(1)?;
    let mut fields = Vec::with_capacity(known.fields.len());
    for field in &known.fields {
        let wanted = match *field {
            Field::Bool => SizedType::Bool,
            Field::Int => SizedType::Int,
            Field::Own => SizedType::Named {
                type_index: owner,
                size: own_size,
            },
            Field::Named { type_index, size } => SizedType::Named { type_index, size },
        };
        fields.push(value(file, cursor, wanted)?);
    }
    Some(fields)
}
