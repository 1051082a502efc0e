//! Listing 5 of the paper: the sum of the ten largest inputs, in a leftist
//! heap. Its `ra` and `rb` are read as rank(a) and rank(b), and sumHeap, which
//! calls itself, has its size as measure.

use crate::build::{
    adjust, call, case, constant, construction, declared, definition, difference, fit, if_then,
    int, less, operation, size_variable, sum, variable, written,
};
use evaluator::syntax::{
    Condition, Expression, Field, File, Function, Input, Node, Operator, PlainType, Size,
    SizedType, WrittenType,
};

/// The functions in file order.
const RANK: usize = 0;
const MAKE: usize = RANK + 1;
const MERGE: usize = MAKE + 1;
const INSERT: usize = MERGE + 1;
const FIND_MIN: usize = INSERT + 1;
const DELETE_MIN: usize = FIND_MIN + 1;
const SUM_HEAP: usize = DELETE_MIN + 1;

const HEAP: usize = 0;
const EMPTY: usize = 0;
const TREE: usize = 1;
const HEAP_SIZE: usize = 21;

/// Channels: x, h, y.
pub fn top10sum() -> File {
    let tree = [Field::Int, Field::Int, Field::Own, Field::Own];
    File {
        types: vec![definition(&[&[], &tree])],
        functions: vec![
            rank(),
            make(),
            merge(),
            insert(),
            find_min(),
            delete_min(),
            sum_heap(),
        ],
        inputs: vec![Input {
            declared: SizedType::Int,
            initial: int(0),
        }],
        nodes: vec![heap(), total()],
    }
}

fn positive(at: usize) -> Condition {
    less(constant(0), size_variable(at))
}

fn empty() -> Expression {
    construction(HEAP, EMPTY, vec![])
}

fn tree(rank: Expression, value: Expression, left: Expression, right: Expression) -> Expression {
    construction(HEAP, TREE, vec![rank, value, left, right])
}

/// A function of one heap that gives an Int: `at_tree` in a branch T(r, x, a, b)
/// with variables 1 to 4, and 0 when empty.
fn int_of_heap(measure: Vec<usize>, at_tree: Expression) -> Function {
    let branches = vec![int(0), at_tree];
    Function {
        parameters: vec![PlainType::Named(HEAP)],
        result: WrittenType::Int,
        conditions: vec![positive(0)],
        measure,
        body: case(HEAP, variable(0), WrittenType::Int, branches),
    }
}

fn rank() -> Function {
    int_of_heap(vec![], variable(1))
}

fn find_min() -> Function {
    int_of_heap(vec![], variable(2))
}

fn sum_heap() -> Function {
    let add = |left, right| operation(Operator::Add, left, right);
    let below = |at| call(SUM_HEAP, vec![variable(at)]);
    int_of_heap(vec![0], add(add(variable(2), below(3)), below(4)))
}

fn make() -> Function {
    let (x, a, b) = (|| variable(0), || variable(1), || variable(2));
    let rank = |heap| call(RANK, vec![heap]);
    let next = |heap| operation(Operator::Add, rank(heap), int(1));
    Function {
        parameters: vec![
            PlainType::Int,
            PlainType::Named(HEAP),
            PlainType::Named(HEAP),
        ],
        result: written(
            HEAP,
            sum(constant(1), sum(size_variable(0), size_variable(1))),
        ),
        conditions: vec![positive(0), positive(1)],
        measure: vec![],
        body: if_then(
            operation(Operator::Less, rank(b()), rank(a())),
            tree(next(b()), x(), a(), b()),
            tree(next(a()), x(), b(), a()),
        ),
    }
}

fn merge() -> Function {
    let merged = || difference(sum(size_variable(0), size_variable(1)), constant(1));
    let both_trees = case(
        HEAP,
        variable(1),
        written(HEAP, merged()),
        vec![adjust(merged(), variable(0)), merge_trees()],
    );
    Function {
        parameters: vec![PlainType::Named(HEAP), PlainType::Named(HEAP)],
        result: written(HEAP, merged()),
        conditions: vec![positive(0), positive(1)],
        measure: vec![0, 1],
        body: case(
            HEAP,
            variable(0),
            written(HEAP, merged()),
            vec![adjust(merged(), variable(1)), both_trees],
        ),
    }
}

/// Variables: h1, h2, then r1, x1, a1, b1, then r2, x2, a2, b2.
fn merge_trees() -> Expression {
    let fields_of_first = 2;
    let fields_of_second = fields_of_first + 4;
    let first = |field: usize| variable(fields_of_first + field);
    let second = |field: usize| variable(fields_of_second + field);
    let (x, a, b) = (1, 2, 3);
    let with_first = call(MERGE, vec![first(b), variable(1)]);
    let with_second = call(MERGE, vec![variable(0), second(b)]);
    if_then(
        operation(Operator::AtMost, first(x), second(x)),
        call(MAKE, vec![first(x), first(a), with_first]),
        call(MAKE, vec![second(x), second(a), with_second]),
    )
}

fn insert() -> Function {
    let single = tree(int(1), variable(0), empty(), empty());
    Function {
        parameters: vec![PlainType::Int, PlainType::Named(HEAP)],
        result: written(HEAP, sum(size_variable(0), constant(2))),
        conditions: vec![positive(0)],
        measure: vec![],
        body: call(MERGE, vec![single, variable(1)]),
    }
}

fn delete_min() -> Function {
    let shrunk = || difference(size_variable(0), constant(2));
    let merged = call(MERGE, vec![variable(3), variable(4)]);
    Function {
        parameters: vec![PlainType::Named(HEAP)],
        result: written(HEAP, shrunk()),
        conditions: vec![less(constant(2), size_variable(0))],
        measure: vec![],
        body: case(
            HEAP,
            variable(0),
            written(HEAP, shrunk()),
            vec![adjust(shrunk(), empty()), merged],
        ),
    }
}

fn heap() -> Node {
    let (x, last) = (|| Expression::Channel(0), || Expression::Previous(1));
    let least = call(FIND_MIN, vec![last()]);
    let without_least = call(DELETE_MIN, vec![last()]);
    let insert = |heap| call(INSERT, vec![x(), heap]);
    Node {
        declared: declared(HEAP, HEAP_SIZE),
        initial: adjust(Size::Constant(HEAP_SIZE as u8), empty()),
        update: fit(
            HEAP_SIZE - 2,
            last(),
            insert(variable(0)),
            if_then(
                operation(Operator::AtMost, x(), least),
                last(),
                insert(without_least),
            ),
        ),
    }
}

fn total() -> Node {
    Node {
        declared: SizedType::Int,
        initial: int(0),
        update: call(SUM_HEAP, vec![Expression::Channel(1)]),
    }
}
