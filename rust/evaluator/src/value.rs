//! Values written out as trees, the form in which values are compared.

use crate::syntax::{Constructor, Field};
use std::rc::Rc;

#[derive(Clone, Debug, PartialEq, Eq, Hash)]
pub enum Tree {
    Bool(bool),
    Int(i32),
    Construction {
        type_index: usize,
        constructor: usize,
        /// 1 plus the sizes of the own-type fields.
        size: usize,
        fields: Vec<Rc<Tree>>,
    },
}

impl Tree {
    /// The real size of a value; Bool and Int have none and count 0.
    pub fn size(&self) -> usize {
        match self {
            Tree::Bool(_) | Tree::Int(_) => 0,
            Tree::Construction { size, .. } => *size,
        }
    }

    /// The cells of the value written as a tree.
    pub fn cells(&self) -> usize {
        match self {
            Tree::Bool(_) | Tree::Int(_) => 1,
            Tree::Construction { fields, .. } => {
                1 + fields.iter().map(|field| field.cells()).sum::<usize>()
            }
        }
    }
}

/// 1 plus the sizes of the own-type fields, whose sizes stand in field order.
pub fn construction_size(constructor: &Constructor, sizes: &[usize]) -> usize {
    let fields = constructor.fields.iter().zip(sizes);
    let own = fields.filter(|(field, _)| **field == Field::Own);
    1 + own.map(|(_, size)| *size).sum::<usize>()
}

/// Whether no field of another type is above its k.
pub fn fields_within(constructor: &Constructor, sizes: &[usize]) -> bool {
    let within = |(field, found): (&Field, &usize)| match field {
        Field::Named { size, .. } => found <= size,
        Field::Bool | Field::Int | Field::Own => true,
    };
    constructor.fields.iter().zip(sizes).all(within)
}
