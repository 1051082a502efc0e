//! Files whose nodes read one another by `13`, in any order or so that some
//! read themselves (document 02, R-3). Which nodes a node reads is chosen first,
//! then where in its update each reading stands.

use crate::build::{
    adjust, call, case, constant, construction, definition, fit, if_then, int, let_in, operation,
    variable,
};
use crate::random::Random;
use evaluator::limits::NODES;
use evaluator::syntax::{
    Expression, Field, File, Function, Input, Node, Operator, PlainType, SizedType, WrittenType,
};

/// The type, whose second constructor holds two Ints.
const PAIR: usize = 0;

/// The function, which gives its second argument.
const SECOND: usize = 0;

/// The input, an Int; the nodes follow it.
const INPUT: usize = 0;
const INPUTS: usize = 1;

/// Where in an update a reading stands.
#[derive(Clone, Copy, Debug, PartialEq, Eq)]
pub enum Place {
    /// In what a let binds.
    Bound,
    /// Under a let.
    Under,
    Condition,
    /// In the arm of an if that is taken.
    Taken,
    /// In the first arm of an if, or in the second, where it is never taken.
    NeverFirst,
    NeverSecond,
    Left,
    Right,
    /// In the right side of an `07` whose left side is true.
    Decided,
    Argument,
    Field,
    Branch,
    /// In a branch that is never taken.
    NeverBranch,
    /// In the subject of an adj.
    Adjusted,
    /// In the subject of a fit.
    Subject,
    /// In the arm where a subject fits.
    Fitting,
    /// In the other arm, where the subject always fits.
    NeverFitting,
}

impl Place {
    pub const ALL: [Place; 17] = [
        Place::Bound,
        Place::Under,
        Place::Condition,
        Place::Taken,
        Place::NeverFirst,
        Place::NeverSecond,
        Place::Left,
        Place::Right,
        Place::Decided,
        Place::Argument,
        Place::Field,
        Place::Branch,
        Place::NeverBranch,
        Place::Adjusted,
        Place::Subject,
        Place::Fitting,
        Place::NeverFitting,
    ];
}

/// A node that is read, and where.
#[derive(Clone, Copy, Debug, PartialEq, Eq)]
pub struct Reading {
    pub node: usize,
    pub place: Place,
}

/// What each node reads.
pub type Readings = Vec<Vec<Reading>>;

fn pair(second: Expression) -> Expression {
    construction(PAIR, 1, vec![int(1), second])
}

/// The second Int of a pair.
fn second_of(pair: Expression) -> Expression {
    case(PAIR, pair, WrittenType::Int, vec![int(0), variable(1)])
}

fn is_positive(of: Expression) -> Expression {
    operation(Operator::Less, int(0), of)
}

/// An Int in which another one stands at a place.
fn around(place: Place, read: Expression) -> Expression {
    let [yes, no] = [true, false].map(Expression::Bool);
    match place {
        Place::Bound => let_in(read, variable(0)),
        Place::Under => let_in(int(1), read),
        Place::Condition => if_then(is_positive(read), int(1), int(2)),
        Place::Taken => if_then(yes, read, int(1)),
        Place::NeverFirst => if_then(no, read, int(1)),
        Place::NeverSecond => if_then(yes, int(1), read),
        Place::Left => operation(Operator::Subtract, read, int(1)),
        Place::Right => operation(Operator::Subtract, int(1), read),
        Place::Decided => {
            let decided = operation(Operator::Or, yes, is_positive(read));
            if_then(decided, int(1), int(2))
        }
        Place::Argument => call(SECOND, vec![int(1), read]),
        Place::Field => second_of(pair(read)),
        Place::Branch => case(PAIR, pair(int(1)), WrittenType::Int, vec![int(1), read]),
        Place::NeverBranch => case(PAIR, pair(int(1)), WrittenType::Int, vec![read, int(1)]),
        Place::Adjusted => second_of(adjust(constant(1), pair(read))),
        Place::Subject => fit(1, pair(read), second_of(variable(0)), int(1)),
        Place::Fitting => fit(1, pair(int(1)), read, int(1)),
        Place::NeverFitting => fit(1, pair(int(1)), int(1), read),
    }
}

/// A node that adds to its last value the input and what it reads.
fn node(channel: usize, readings: &[Reading]) -> Node {
    let last = Expression::Previous(channel);
    let kept = operation(Operator::Add, last, Expression::Channel(INPUT));
    let added = |sum, reading: &Reading| {
        let read = Expression::Channel(INPUTS + reading.node);
        operation(Operator::Add, sum, around(reading.place, read))
    };
    Node {
        declared: SizedType::Int,
        initial: int(0),
        update: readings.iter().fold(kept, added),
    }
}

fn second() -> Function {
    Function {
        parameters: vec![PlainType::Int; 2],
        result: WrittenType::Int,
        conditions: vec![],
        measure: vec![],
        body: variable(1),
    }
}

/// A file whose nodes read so. Its sizes and plain types agree.
pub fn file_of(readings: &[Vec<Reading>]) -> File {
    let input = Input {
        declared: SizedType::Int,
        initial: int(0),
    };
    let nodes = readings.iter().enumerate();
    let nodes = nodes.map(|(at, readings)| node(INPUTS + at, readings));
    File {
        types: vec![definition(&[&[], &[Field::Int; 2]])],
        functions: vec![second()],
        inputs: vec![input],
        nodes: nodes.collect(),
    }
}

/// A reading of a node, anywhere.
fn somewhere(random: &mut Random, node: usize) -> Reading {
    let place = *random.pick(&Place::ALL);
    Reading { node, place }
}

/// The most that a node reads, before a ring is closed.
const MOST_READ: usize = 3;

/// Each node reads some of those before it in an order.
pub fn random_readings(random: &mut Random, order: &[usize]) -> Readings {
    let mut readings = vec![vec![]; order.len()];
    for (before, node) in order.iter().enumerate().skip(1) {
        for _ in 0..random.below(MOST_READ + 1) {
            let read = order[random.below(before)];
            readings[*node].push(somewhere(random, read));
        }
    }
    readings
}

/// Each node of a ring reads the next one, the last the first.
pub fn close_ring(random: &mut Random, readings: &mut [Vec<Reading>], ring: &[usize]) {
    let next = ring.iter().cycle().skip(1);
    for (node, next) in ring.iter().zip(next) {
        readings[*node].push(somewhere(random, *next));
    }
}

/// Mostly few nodes, now and then up to as many as there may be.
fn random_count(random: &mut Random) -> usize {
    match random.one_in(5) {
        true => random.between(1, NODES),
        false => random.between(2, 5),
    }
}

/// Nodes in any order, none of which reads itself.
pub fn ordered_file(random: &mut Random) -> File {
    let count = random_count(random);
    let order = random.order(count);
    file_of(&random_readings(random, &order))
}

/// The same with a ring, mostly of up to three nodes, and now and then a lower
/// node that only reads it.
pub fn ring_file(random: &mut Random) -> File {
    let count = random_count(random);
    let order = random.order(count);
    let mut readings = random_readings(random, &order);
    let longest = if random.one_in(4) { NODES } else { 3 };
    let length = random.between(1, longest.min(count));
    let order = random.order(count);
    let (ring, others) = order.split_at(length);
    close_ring(random, &mut readings, ring);
    if let Some(lowest) = others.iter().min().filter(|_| random.one_in(2)) {
        readings[*lowest].push(somewhere(random, ring[0]));
    }
    file_of(&readings)
}

/// Readings of single nodes, all in the same place.
pub fn single_readings(place: Place, nodes: impl IntoIterator<Item = usize>) -> Readings {
    let nodes = nodes.into_iter();
    nodes.map(|node| vec![Reading { node, place }]).collect()
}

/// As many nodes as there may be, each of which reads the next one; the last
/// reads none, or the first.
pub fn longest_chain(closed: bool) -> File {
    let mut readings = single_readings(Place::Left, (1..=NODES).map(|next| next % NODES));
    if !closed {
        readings[NODES - 1].clear();
    }
    file_of(&readings)
}
