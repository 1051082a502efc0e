//! Files at the limits.

use crate::build::{
    adjust, call, case, constant, construction, declared, definition, int, let_in, operation, sum,
    variable,
};
use crate::readings::longest_chain;
use crate::writer;
use evaluator::limits::{
    FIELDS, FUNCTIONS, INSTANCES, LARGEST_SIZE, NESTING, PARAMETERS, SIZE_VARIABLES,
    TEXT_CHARACTERS, VARIABLES,
};
use evaluator::syntax::{
    Expression, Field, File, Function, Node, Operator, PlainType, SizedType, TypeDefinition,
    WrittenType,
};

const LIST: usize = 0;

/// Nil, then cons of an Int and a list.
fn list() -> TypeDefinition {
    definition(&[&[], &[Field::Int, Field::Own]])
}

fn list_of_size(size: usize) -> Expression {
    adjust(constant(size as u8), construction(LIST, 0, vec![]))
}

/// A node of type Int.
fn int_node(update: Expression) -> Node {
    Node {
        declared: SizedType::Int,
        initial: int(0),
        update,
    }
}

fn int_function(parameters: Vec<PlainType>, measure: Vec<usize>, body: Expression) -> Function {
    Function {
        parameters,
        result: WrittenType::Int,
        conditions: vec![],
        measure,
        body,
    }
}

/// More characters than a file may have (refusal 1), or just as many.
pub fn long_text(over: usize) -> Vec<u8> {
    vec![b'0'; TEXT_CHARACTERS + over]
}

/// A type each of whose constructors needs another value of it (refusal 8).
pub fn no_self_free_constructor() -> Vec<u8> {
    writer::text(&File {
        types: vec![definition(&[&[Field::Own], &[Field::Int, Field::Own]])],
        nodes: vec![int_node(int(0))],
        ..File::default()
    })
}

/// A function over two lists with an instance for each pair of smaller sizes:
/// left × right in all (refusal 14 over 1,024).
pub fn instances(left: usize, right: usize) -> File {
    let further = call(0, vec![variable(0), variable(3)]);
    let right_split = case(LIST, variable(1), WrittenType::Int, vec![int(0), further]);
    let shorter = call(0, vec![variable(3), variable(1)]);
    let body = case(
        LIST,
        variable(0),
        WrittenType::Int,
        vec![right_split, shorter],
    );
    let parameters = vec![PlainType::Named(LIST); 2];
    let arguments = vec![list_of_size(left), list_of_size(right)];
    File {
        types: vec![list()],
        functions: vec![int_function(parameters, vec![0, 1], body)],
        nodes: vec![int_node(call(0, arguments))],
        ..File::default()
    }
}

/// Sums nested to a level; 32 is the most (refusal 7 above).
pub fn nested_sums(level: usize) -> File {
    let added = |inner, _| operation(Operator::Add, int(1), inner);
    File {
        nodes: vec![int_node((1..level).fold(int(0), added))],
        ..File::default()
    }
}

/// Sizes nested to a level; 32 is the most (refusal 7 above).
pub fn nested_sizes(level: usize) -> File {
    let grown = |inner, _| sum(constant(0), inner);
    let size = (1..level).fold(constant(1), grown);
    File {
        types: vec![list()],
        nodes: vec![Node {
            declared: declared(LIST, 1),
            initial: construction(LIST, 0, vec![]),
            update: adjust(size, construction(LIST, 0, vec![])),
        }],
        ..File::default()
    }
}

/// Cases of four fields each, then lets, that bind so many variables; 32 is
/// the most (refusal 7 above).
pub fn bound_variables(count: usize) -> File {
    let record = || construction(LIST, 0, vec![int(1); FIELDS]);
    let lets = |inner, _| let_in(int(2), inner);
    let innermost = (0..count % FIELDS).fold(int(0), lets);
    let cases = |inner, _| case(LIST, record(), WrittenType::Int, vec![inner]);
    let update = (0..count / FIELDS).fold(innermost, cases);
    File {
        types: vec![definition(&[&[Field::Int; FIELDS]])],
        nodes: vec![int_node(update)],
        ..File::default()
    }
}

/// Eight lists as parameters, and the fields of `splits` cases: each brings a
/// size variable, of which eight may stand in scope (refusal 7 above).
pub fn bound_sizes(parameters: usize, splits: usize) -> File {
    let split = |inner, _| case(LIST, variable(0), WrittenType::Int, vec![int(0), inner]);
    let body = (0..splits).fold(int(1), split);
    let lists = vec![PlainType::Named(LIST); parameters];
    let arguments = vec![list_of_size(3); parameters];
    File {
        types: vec![list()],
        functions: vec![int_function(lists, vec![], body)],
        nodes: vec![int_node(call(0, arguments))],
        ..File::default()
    }
}

/// A list of the largest size that grows at each line: sizes refuse it, and
/// an iteration on a full list makes a value too large (refusal 23).
pub fn growing_list() -> File {
    let longer = construction(LIST, 1, vec![int(1), Expression::Previous(0)]);
    File {
        types: vec![list()],
        nodes: vec![Node {
            declared: declared(LIST, LARGEST_SIZE),
            initial: list_of_size(LARGEST_SIZE),
            update: longer,
        }],
        ..File::default()
    }
}

/// Functions that call the one before twice: numbers stop at 65,535.
pub fn doubling(functions: usize) -> File {
    let twice = |at: usize| operation(Operator::Add, call(at, vec![]), call(at, vec![]));
    let body = |at: usize| match at.checked_sub(1) {
        Some(before) => twice(before),
        None => int(1),
    };
    let function = |at| int_function(vec![], vec![], body(at));
    File {
        functions: (0..functions).map(function).collect(),
        nodes: vec![int_node(call(functions - 1, vec![]))],
        ..File::default()
    }
}

/// One file at each limit and one just over it, as texts.
pub fn all() -> Vec<Vec<u8>> {
    let square = 32;
    let files = [
        instances(square, INSTANCES / square),
        instances(square + 1, INSTANCES / square),
        nested_sums(NESTING),
        nested_sums(NESTING + 1),
        nested_sizes(NESTING),
        nested_sizes(NESTING + 1),
        bound_variables(VARIABLES),
        bound_variables(VARIABLES + 1),
        bound_sizes(PARAMETERS, 0),
        bound_sizes(PARAMETERS, SIZE_VARIABLES + 1 - PARAMETERS),
        doubling(FUNCTIONS),
        doubling(FUNCTIONS / 2),
        growing_list(),
        longest_chain(false),
        longest_chain(true),
    ];
    let mut texts: Vec<Vec<u8>> = files.iter().map(writer::text).collect();
    texts.extend([long_text(0), long_text(1), no_self_free_constructor()]);
    texts
}
