//! A file with a list input and one node, and lists of a given length.

use evaluator::syntax::{Expression, Field, File, Input, Node, SizedType};
use evaluator::value::Tree;
use generator::build::{adjust, constant, construction, declared, definition};
use std::rc::Rc;

/// A list input of size `size` and a node computed from it.
pub fn list_to(
    size: usize,
    declared_node: SizedType,
    initial: Expression,
    update: Expression,
) -> File {
    File {
        types: vec![definition(&[&[], &[Field::Int, Field::Own]])],
        inputs: vec![Input {
            declared: declared(0, size),
            initial: adjust(constant(size as u8), construction(0, 0, vec![])),
        }],
        nodes: vec![Node {
            declared: declared_node,
            initial,
            update,
        }],
        ..File::default()
    }
}

/// A list of so many Ints.
pub fn list_of(length: usize) -> Rc<Tree> {
    let nil = Rc::new(Tree::Construction {
        type_index: 0,
        constructor: 0,
        size: 1,
        fields: vec![],
    });
    let cons = |tail: Rc<Tree>, head: usize| {
        Rc::new(Tree::Construction {
            type_index: 0,
            constructor: 1,
            size: 1 + tail.size(),
            fields: vec![Rc::new(Tree::Int(head as i32)), tail],
        })
    };
    (0..length).fold(nil, cons)
}
