//! Cells of a type: the most cells, written as a tree, of a value of at most
//! a given size. One a constructor, one a Bool or Int; an Int has no size.

use crate::estimate::sum;
use crate::limits::LARGEST_SIZE;
use crate::syntax::{Constructor, Field, SizedType, TypeDefinition};

/// The cells of each type at each size, worked out once for a file.
pub struct CellTable {
    /// By type, then by size; size 0 has no value and counts 0.
    most: Vec<Vec<u32>>,
}

impl CellTable {
    pub fn new(types: &[TypeDefinition]) -> CellTable {
        let mut table = CellTable { most: Vec::new() };
        for definition in types {
            let row = table.row(definition);
            table.most.push(row);
        }
        table
    }

    pub fn of(&self, declared: SizedType) -> u32 {
        match declared {
            SizedType::Bool | SizedType::Int => 1,
            SizedType::Named { type_index, size } => self.most[type_index][size],
        }
    }

    fn row(&self, definition: &TypeDefinition) -> Vec<u32> {
        let mut row = vec![0];
        for size in 1..=LARGEST_SIZE {
            let possible = |constructor: &&Constructor| constructor.own_fields() < size;
            let constructors = definition.constructors.iter().filter(possible);
            let most = constructors
                .map(|constructor| self.of_constructor(constructor, size, &row))
                .max();
            row.push(most.unwrap_or(0));
        }
        row
    }

    /// The constructor's own cell, its fixed fields, and the widest split of
    /// the remaining size over its own-type fields.
    fn of_constructor(&self, constructor: &Constructor, size: usize, smaller: &[u32]) -> u32 {
        let fixed = constructor.fields.iter().map(|field| self.of_fixed(*field));
        let own = widest(constructor.own_fields(), size - 1, smaller);
        sum(fixed.fold(1, sum), own)
    }

    fn of_fixed(&self, field: Field) -> u32 {
        match field {
            Field::Own => 0,
            Field::Bool | Field::Int => 1,
            Field::Named { type_index, size } => self.most[type_index][size],
        }
    }
}

/// The most cells of `parts` values whose sizes add up to `total`.
fn widest(parts: usize, total: usize, smaller: &[u32]) -> u32 {
    match parts {
        0 => 0,
        1 => smaller[total],
        _ => (1..=total - (parts - 1))
            .map(|first| sum(smaller[first], widest(parts - 1, total - first, smaller)))
            .max()
            .unwrap_or(0),
    }
}
