//! Files whose node is an `06` or `07` with a right side that costs much: cells,
//! slots, calls, a value too large, or a search that does not end on an empty
//! list. Whether it is evaluated is told by 20 to 23 (document 02, R-2).

use crate::build::{
    adjust, call, case, constant, construction, declared, definition, int, let_in, operation,
    variable,
};
use crate::random::Random;
use evaluator::limits::{LARGEST_SIZE, NESTING, VARIABLES};
use evaluator::syntax::{
    Expression, Field, File, Function, Input, Node, Operator, PlainType, SizedType, WrittenType,
};

const LIST: usize = 0;
const LONGEST: usize = 3;

/// The channels: a Bool and a list as inputs, a node that keeps a list of up to
/// the largest size, and the node of the operation.
const BOOL: usize = 0;
const SHORT: usize = 1;
const LONG: usize = 2;

/// The functions: a search of a list for an Int, and a chain of calls.
const SEARCH: usize = 0;
const CHAIN: usize = 1;

/// A right side that may be refused.
#[derive(Clone, Copy, Debug, PartialEq, Eq)]
pub enum Costly {
    /// Sums nested: 20.
    Cells,
    /// Lets nested: 21.
    Slots,
    /// Calls of one function by the next: 22.
    Calls,
    /// A list longer than the longest: 23.
    Large,
    /// A search that on an empty list begins again: 22.
    Search,
}

impl Costly {
    pub const ALL: [Costly; 5] = [
        Costly::Cells,
        Costly::Slots,
        Costly::Calls,
        Costly::Large,
        Costly::Search,
    ];
}

fn bool_of(value: bool) -> Expression {
    Expression::Bool(value)
}

/// Whether a list is empty.
fn is_empty(list: Expression) -> Expression {
    let branches = vec![bool_of(true), bool_of(false)];
    case(LIST, list, WrittenType::Bool, branches)
}

/// A right side that costs so much.
pub fn right_side(costly: Costly, much: usize) -> Expression {
    match costly {
        Costly::Cells => {
            let sum = |inner, _| operation(Operator::Add, int(1), inner);
            let nested = (0..much.min(NESTING / 2)).fold(int(0), sum);
            operation(Operator::AtMost, int(0), nested)
        }
        Costly::Slots => {
            let bound = |inner, _| let_in(int(0), inner);
            (0..much.min(VARIABLES / 2)).fold(bool_of(true), bound)
        }
        Costly::Calls => call(CHAIN, vec![int(much as i32)]),
        Costly::Large => {
            let longer = construction(LIST, 1, vec![int(0), Expression::Channel(LONG)]);
            is_empty(longer)
        }
        Costly::Search => call(SEARCH, vec![Expression::Channel(SHORT), int(much as i32)]),
    }
}

/// A left side: a constant, a channel, a test of the list, or one of these in an
/// operation of its own.
fn left_side(random: &mut Random) -> Expression {
    match random.below(6) {
        0 => bool_of(random.one_in(2)),
        1 | 2 => Expression::Channel(BOOL),
        3 | 4 => is_empty(Expression::Channel(SHORT)),
        _ => {
            let right = Expression::Channel(BOOL);
            operation(operator(random), left_side(random), right)
        }
    }
}

fn operator(random: &mut Random) -> Operator {
    *random.pick(&[Operator::And, Operator::Or])
}

/// The search ends where the Int is found; on an empty list it begins again.
fn search() -> Function {
    let found = operation(Operator::Equal, variable(2), variable(1));
    let further = call(SEARCH, vec![variable(3), variable(1)]);
    let branches = vec![
        call(SEARCH, vec![variable(0), variable(1)]),
        operation(Operator::Or, found, further),
    ];
    Function {
        parameters: vec![PlainType::Named(LIST), PlainType::Int],
        result: WrittenType::Bool,
        conditions: vec![],
        measure: vec![0],
        body: case(LIST, variable(0), WrittenType::Bool, branches),
    }
}

/// As many calls as its argument says.
fn chain() -> Function {
    let fewer = operation(Operator::Subtract, variable(0), int(1));
    let ended = operation(Operator::AtMost, variable(0), int(0));
    Function {
        parameters: vec![PlainType::Int],
        result: WrittenType::Bool,
        conditions: vec![],
        measure: vec![],
        body: operation(Operator::Or, ended, call(CHAIN, vec![fewer])),
    }
}

/// An empty list.
fn empty() -> Expression {
    construction(LIST, 0, vec![])
}

/// A file whose node is given by an update, over the channels and functions of
/// this module.
pub fn file_of(update: Expression) -> File {
    let switch = Input {
        declared: SizedType::Bool,
        initial: bool_of(false),
    };
    let short = Input {
        declared: declared(LIST, LONGEST),
        initial: empty(),
    };
    let long = Node {
        declared: declared(LIST, LARGEST_SIZE),
        initial: adjust(constant(LARGEST_SIZE as u8), empty()),
        update: Expression::Previous(LONG),
    };
    let operated = Node {
        declared: SizedType::Bool,
        initial: bool_of(false),
        update,
    };
    File {
        types: vec![definition(&[&[], &[Field::Int, Field::Own]])],
        functions: vec![search(), chain()],
        inputs: vec![switch, short],
        nodes: vec![long, operated],
    }
}

/// Such a file, by chance.
pub fn random_file(random: &mut Random) -> File {
    let costly = *random.pick(&Costly::ALL);
    let right = right_side(costly, random.below(12));
    file_of(operation(operator(random), left_side(random), right))
}
