//! Files that show how a checker's cost grows.

use crate::build::{
    adjust, case, constant, construction, definition, int, let_in, operation, variable,
};
use evaluator::syntax::{Expression, Field, File, Node, Operator, SizedType, WrittenType};

const TREE: usize = 0;

/// A node of type Int.
fn int_node(update: Expression) -> Node {
    Node {
        declared: SizedType::Int,
        initial: int(0),
        update,
    }
}

/// Nodes that are balanced sums of two to the `depth` numbers.
pub fn sums(depth: usize, nodes: usize) -> File {
    let doubled = |half: Expression, _| operation(Operator::Add, half.clone(), half);
    let update = (0..depth).fold(int(1), doubled);
    File {
        nodes: vec![int_node(update); nodes],
        ..File::default()
    }
}

/// A case at `size` whose branch has so many own-type fields and names them
/// all, so that no two splits are alike.
pub fn splits(own_fields: usize, size: usize) -> File {
    let fields = (0..own_fields).map(variable).collect();
    let rebuilt = let_in(construction(TREE, 1, fields), int(0));
    let leaf = construction(TREE, 0, vec![]);
    let subject = adjust(constant(size as u8), leaf);
    let branches = vec![int(0), rebuilt];
    File {
        types: vec![definition(&[&[], &vec![Field::Own; own_fields]])],
        nodes: vec![int_node(case(TREE, subject, WrittenType::Int, branches))],
        ..File::default()
    }
}
