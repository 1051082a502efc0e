//! Files that take a checker deepest: as many bodies inside one another as
//! there may be instances, each nested as deep as an expression may be. And
//! files that take an evaluator deepest, in as many calls as a board may have.

use crate::build::{
    adjust, call, case, constant, construction, declared, definition, fit, if_then, let_in,
    operation, variable, written,
};
use evaluator::limits::{BOARD_CALLS, BOARD_SLOTS, INSTANCES, LARGEST_SIZE, NESTING};
use evaluator::syntax::{
    Expression, Field, File, Function, Node, Operator, PlainType, SizedType, TypeDefinition,
    WrittenType,
};

/// Where the next level of a body stands in the one around it.
#[derive(Clone, Copy, Debug, PartialEq, Eq)]
pub enum Level {
    /// In the argument of a call.
    Argument,
    /// In the left side of an `06`.
    Operand,
    /// In the right side of an `06` whose left side is true.
    Right,
    /// In what a let binds.
    Bound,
    /// Under a let.
    Under,
    /// In an arm of an if.
    Arm,
    Branch,
    /// In a field of a constructor that is a case's scrutinee: two levels.
    Field,
    /// In the arm where a subject fits.
    Fitting,
    /// In the subject of an adj.
    Adjusted,
}

impl Level {
    pub const ALL: [Level; 10] = [
        Level::Argument,
        Level::Operand,
        Level::Right,
        Level::Bound,
        Level::Under,
        Level::Arm,
        Level::Branch,
        Level::Field,
        Level::Fitting,
        Level::Adjusted,
    ];
}

const LIST: usize = 0;
const UNIT: usize = 1;
const BOX: usize = 2;

const IDENTITY: usize = 0;

/// Each function shortens a list of the largest size down to 1, then calls the
/// one before.
const DEEP_FUNCTIONS: usize = INSTANCES / LARGEST_SIZE;

/// The file whose bodies are nested so.
pub fn deepest_bodies(level: Level) -> File {
    let deep = (1..=DEEP_FUNCTIONS).map(|at| deep_function(level, at));
    // The identity is an instance too where it is called.
    let size = match level {
        Level::Argument => LARGEST_SIZE - 1,
        _ => LARGEST_SIZE,
    };
    File {
        types: types(),
        functions: std::iter::once(identity()).chain(deep).collect(),
        nodes: vec![Node {
            declared: sized(level),
            initial: leaf(level),
            update: deep_call(DEEP_FUNCTIONS, size),
        }],
        ..File::default()
    }
}

/// Lists with cons first, so that a list is shortened before the next function
/// begins; a type of one value; one that holds a Bool.
fn types() -> Vec<TypeDefinition> {
    vec![
        definition(&[&[Field::Int, Field::Own], &[]]),
        definition(&[&[]]),
        definition(&[&[Field::Bool]]),
    ]
}

fn unit() -> Expression {
    construction(UNIT, 0, vec![])
}

/// What a body gives: a Bool, or what can be adjusted.
fn leaf(level: Level) -> Expression {
    match level {
        Level::Adjusted => unit(),
        _ => Expression::Bool(false),
    }
}

fn sized(level: Level) -> SizedType {
    match level {
        Level::Adjusted => declared(UNIT, 1),
        _ => SizedType::Bool,
    }
}

fn result(level: Level) -> WrittenType {
    match level {
        Level::Adjusted => written(UNIT, constant(1)),
        _ => WrittenType::Bool,
    }
}

fn identity() -> Function {
    Function {
        parameters: vec![PlainType::Bool],
        result: WrittenType::Bool,
        conditions: vec![],
        measure: vec![],
        body: variable(0),
    }
}

fn deep_call(function: usize, size: usize) -> Expression {
    let nil = construction(LIST, 1, vec![]);
    call(function, vec![adjust(constant(size as u8), nil)])
}

fn deep_function(level: Level, at: usize) -> Function {
    // The case, the innermost call and its argument are levels too, and an adj
    // in the argument is one more. The list is variable 0, cons binds two.
    let levels = NESTING - 3;
    let shorter = call(at, vec![variable(2)]);
    let shorter = nested(level, levels, 3, shorter);
    let next = match at - 1 {
        IDENTITY => leaf(level),
        before => nested(level, levels - 1, 1, deep_call(before, LARGEST_SIZE)),
    };
    Function {
        parameters: vec![PlainType::Named(LIST)],
        result: result(level),
        conditions: vec![],
        measure: vec![0],
        body: case(LIST, variable(0), result(level), vec![shorter, next]),
    }
}

/// So many levels around an expression, where `bound` variables are in scope.
fn nested(level: Level, levels: usize, bound: usize, innermost: Expression) -> Expression {
    let times = match level {
        Level::Field => levels / 2,
        _ => levels,
    };
    (0..times).fold(innermost, |inner, _| around(level, bound, inner))
}

fn around(level: Level, bound: usize, inner: Expression) -> Expression {
    match level {
        Level::Argument => call(IDENTITY, vec![inner]),
        Level::Operand => operation(Operator::And, inner, leaf(level)),
        Level::Right => operation(Operator::And, Expression::Bool(true), inner),
        Level::Bound => let_in(inner, leaf(level)),
        Level::Under => let_in(leaf(level), inner),
        Level::Arm => if_then(Expression::Bool(true), inner, leaf(level)),
        Level::Branch => case(UNIT, unit(), WrittenType::Bool, vec![inner]),
        Level::Field => {
            let boxed = construction(BOX, 0, vec![inner]);
            case(BOX, boxed, WrittenType::Bool, vec![variable(bound)])
        }
        Level::Fitting => fit(1, unit(), inner, leaf(level)),
        Level::Adjusted => adjust(constant(1), inner),
    }
}

const ENDLESS: usize = 1;

/// The slots that each of so many bodies may take.
const SLOTS_A_BODY: usize = BOARD_SLOTS as usize / BOARD_CALLS as usize;

/// A file whose function calls itself, nested so, until no call is left. The
/// checker refuses it; an iteration judges no sizes and evaluates it. Its one
/// node is a Bool.
pub fn endless_calls(level: Level) -> File {
    let around = match takes_slot(level) {
        true => SLOTS_A_BODY - 1,
        false => NESTING - 1,
    };
    let inner = nested(level, around, 0, call(ENDLESS, vec![]));
    let operands = NESTING - 1 - around;
    let endless = Function {
        parameters: vec![],
        result: result(level),
        conditions: vec![],
        measure: vec![],
        body: nested(Level::Operand, operands, 0, inner),
    };
    let update = match level {
        Level::Adjusted => case(
            UNIT,
            call(ENDLESS, vec![]),
            WrittenType::Bool,
            vec![Expression::Bool(false)],
        ),
        _ => nested(Level::Operand, NESTING - 1, 0, call(ENDLESS, vec![])),
    };
    File {
        types: types(),
        functions: vec![identity(), endless],
        nodes: vec![Node {
            declared: SizedType::Bool,
            initial: Expression::Bool(false),
            update,
        }],
        ..File::default()
    }
}

/// Whether the next level is evaluated while a slot of this one is taken.
fn takes_slot(level: Level) -> bool {
    matches!(level, Level::Argument | Level::Under | Level::Fitting)
}
