//! Listing 3 of the paper: duplication checking with a list.

use crate::build::{
    adjust, call, case, constant, construction, declared, definition, difference, fit, if_then,
    int, less, operation, size_variable, sum, variable, written,
};
use evaluator::syntax::{
    Condition, Expression, Field, File, Function, Input, Node, Operator, PlainType, SizedType,
    WrittenType,
};

/// The functions in file order.
pub const INSERT: usize = 0;
pub const SEARCH: usize = 1;
pub const TAIL: usize = 2;

const LIST: usize = 0;
const NIL: usize = 0;
const CONS: usize = 1;
const HISTORY_SIZE: usize = 5;

/// Listing 3, with `search(v, ..)` for its misprinted x. Channels: reset, v,
/// history, detect.
pub fn listing3() -> File {
    File {
        types: vec![definition(&[&[], &[Field::Int, Field::Own]])],
        functions: vec![insert(), search(), tail()],
        inputs: vec![
            Input {
                declared: SizedType::Bool,
                initial: Expression::Bool(false),
            },
            Input {
                declared: SizedType::Int,
                initial: int(0),
            },
        ],
        nodes: vec![history(), detect()],
    }
}

fn positive(at: usize) -> Condition {
    less(constant(0), size_variable(at))
}

fn nil() -> Expression {
    construction(LIST, NIL, vec![])
}

fn cons(head: Expression, tail: Expression) -> Expression {
    construction(LIST, CONS, vec![head, tail])
}

fn insert() -> Function {
    let grown = || sum(size_variable(0), constant(1));
    Function {
        parameters: vec![PlainType::Int, PlainType::Named(LIST)],
        result: written(LIST, grown()),
        conditions: vec![positive(0)],
        measure: vec![0],
        body: case(
            LIST,
            variable(1),
            written(LIST, grown()),
            vec![
                adjust(grown(), cons(variable(0), nil())),
                cons(variable(2), call(INSERT, vec![variable(0), variable(3)])),
            ],
        ),
    }
}

fn search() -> Function {
    let found = operation(Operator::Equal, variable(0), variable(2));
    let further = call(SEARCH, vec![variable(0), variable(3)]);
    Function {
        parameters: vec![PlainType::Int, PlainType::Named(LIST)],
        result: WrittenType::Bool,
        conditions: vec![positive(0)],
        measure: vec![0],
        body: case(
            LIST,
            variable(1),
            WrittenType::Bool,
            vec![
                Expression::Bool(false),
                if_then(found, Expression::Bool(true), further),
            ],
        ),
    }
}

fn tail() -> Function {
    let shrunk = || difference(size_variable(0), constant(1));
    Function {
        parameters: vec![PlainType::Named(LIST)],
        result: written(LIST, shrunk()),
        conditions: vec![less(constant(0), shrunk())],
        measure: vec![],
        body: case(
            LIST,
            variable(0),
            written(LIST, shrunk()),
            vec![adjust(shrunk(), nil()), variable(2)],
        ),
    }
}

fn history() -> Node {
    let full = || constant(HISTORY_SIZE as u8);
    let (reset, v, last) = (
        Expression::Channel(0),
        Expression::Channel(1),
        Expression::Previous(2),
    );
    let shortened = call(TAIL, vec![last.clone()]);
    let insert = |list| call(INSERT, vec![v.clone(), list]);
    Node {
        declared: declared(LIST, HISTORY_SIZE),
        initial: adjust(full(), nil()),
        update: if_then(
            reset,
            adjust(full(), cons(v.clone(), nil())),
            fit(
                HISTORY_SIZE - 1,
                last,
                insert(variable(0)),
                insert(shortened),
            ),
        ),
    }
}

fn detect() -> Node {
    let arguments = vec![Expression::Channel(1), Expression::Previous(2)];
    Node {
        declared: SizedType::Bool,
        initial: Expression::Bool(false),
        update: call(SEARCH, arguments),
    }
}
