//! Values written out as trees, as the words of a state hold them.

use crate::sizes::{CELL_WORDS, FIELDS, HEADER_WORDS};
use std::fmt;

/// A channel's value.
///
/// It prints as `Int 5`, `Bool true`, or `0.1(7, 0.0)`: constructor 1 of type 0 with its fields.
#[derive(Clone, Debug, PartialEq, Eq)]
pub enum Value {
    Bool(bool),
    Int(i32),
    Construction {
        /// The type's number in the file.
        type_index: usize,
        /// The constructor's number in its type.
        constructor: usize,
        /// 1 plus the sizes of the fields of the type itself.
        size: u32,
        fields: Vec<Value>,
    },
}

/// How many fields each constructor of each type has; the words of a state do not say.
pub(crate) type FieldCounts = [Vec<usize>];

const BOOL_TAG: u32 = 1;
const INT_TAG: u32 = 2;
/// A construction's tag is this times (type + 1), plus the constructor.
const TYPE_STEP: u32 = 256;

impl Value {
    /// The value written out from a cell of a state that the library left.
    pub(crate) fn of_cell(state: &[u32], at: u32, counts: &FieldCounts) -> Value {
        let start = HEADER_WORDS + CELL_WORDS * at as usize;
        let [tag, content, ref fields @ ..] = state[start..start + CELL_WORDS] else {
            unreachable!("a cell has its words")
        };
        match tag {
            BOOL_TAG => Value::Bool(content != 0),
            INT_TAG => Value::Int(content as i32),
            _ => {
                let type_index = (tag / TYPE_STEP) as usize - 1;
                let constructor = (tag % TYPE_STEP) as usize;
                let count = counts[type_index][constructor].min(FIELDS);
                let fields = fields[..count].iter();
                Value::Construction {
                    type_index,
                    constructor,
                    size: content,
                    fields: fields
                        .map(|field| Value::of_cell(state, *field, counts))
                        .collect(),
                }
            }
        }
    }
}

/// A value without the name of its type before a Bool or Int, as a field is shown.
struct Bare<'a>(&'a Value);

impl fmt::Display for Bare<'_> {
    fn fmt(&self, out: &mut fmt::Formatter) -> fmt::Result {
        match self.0 {
            Value::Bool(value) => write!(out, "{value}"),
            Value::Int(value) => write!(out, "{value}"),
            Value::Construction {
                type_index,
                constructor,
                fields,
                ..
            } => {
                let fields: Vec<String> = fields.iter().map(|it| Bare(it).to_string()).collect();
                let name = format!("{type_index}.{constructor}");
                match fields.is_empty() {
                    true => out.write_str(&name),
                    false => write!(out, "{name}({})", fields.join(", ")),
                }
            }
        }
    }
}

impl fmt::Display for Value {
    fn fmt(&self, out: &mut fmt::Formatter) -> fmt::Result {
        match self {
            Value::Bool(_) => write!(out, "Bool {}", Bare(self)),
            Value::Int(_) => write!(out, "Int {}", Bare(self)),
            Value::Construction { .. } => write!(out, "{}", Bare(self)),
        }
    }
}

#[cfg(test)]
mod tests {
    use super::*;

    /// A list type: constructor 0 without fields, constructor 1 of an Int and a list.
    fn list_counts() -> Vec<Vec<usize>> {
        vec![vec![0, 2]]
    }

    #[test]
    fn values_print_readably() {
        let cells = [
            [1, 1, 0, 0, 0, 0],
            [2, -5i32 as u32, 0, 0, 0, 0],
            [256, 1, 0, 0, 0, 0],
            [257, 2, 1, 2, 0, 0],
        ];
        let state = [&[0; HEADER_WORDS][..], cells.as_flattened()].concat();
        let shown = |at| Value::of_cell(&state, at, &list_counts()).to_string();
        assert_eq!(shown(0), "Bool true");
        assert_eq!(shown(1), "Int -5");
        assert_eq!(shown(2), "0.0");
        assert_eq!(shown(3), "0.1(-5, 0.0)");
    }
}
