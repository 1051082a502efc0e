//! Refusals 20 to 23 where the rules meet them.

mod support;

use evaluator::answer::Board;
use evaluator::limits::LARGEST_SIZE;
use evaluator::syntax::{
    Expression, Field, File, Function, Input, Node, PlainType, SizedType, WrittenType,
};
use evaluator::value::Tree;
use generator::build::{
    call, case, construction, declared, definition, fit, int, let_in, operation, variable,
};
use generator::{edges, writer};
use std::rc::Rc;
use support::Lent;

/// One iteration on a state of the given values: number and frame.
fn iterated(file: &File, channels: &[Tree], board: Board, line: &[u8]) -> (u32, u32) {
    let mut lent = Lent::holding(board, channels);
    let answer = lent.iterate(&writer::text(file), line);
    (answer.number, answer.frame)
}

/// One node of type Int whose value takes a cell; `free` more are lent.
fn updated(functions: &[Function], update: Expression, free: [u32; 3]) -> u32 {
    let [cells, slots, calls] = free;
    let file = File {
        types: vec![definition(&[&[Field::Int, Field::Int]])],
        functions: functions.to_vec(),
        inputs: vec![],
        nodes: vec![Node {
            declared: SizedType::Int,
            initial: int(0),
            update,
        }],
    };
    let cells = 1 + cells;
    let board = Board {
        cells,
        slots,
        calls,
    };
    iterated(&file, &[Tree::Int(0)], board, b"05\n").0
}

#[test]
fn a_constant_and_an_operation_take_a_cell_each() {
    let sum = || operation(evaluator::syntax::Operator::Add, int(1), int(2));
    assert_eq!(updated(&[], int(1), [0, 0, 0]), 20);
    assert_eq!(updated(&[], int(1), [1, 0, 0]), 0);
    assert_eq!(updated(&[], sum(), [2, 0, 0]), 20);
    assert_eq!(updated(&[], sum(), [3, 0, 0]), 0);
}

#[test]
fn let_case_and_fit_take_slots_after_their_first_expression() {
    let pair = || construction(0, 0, vec![int(1), int(2)]);
    let bound = let_in(int(1), variable(0));
    assert_eq!(updated(&[], bound.clone(), [0, 0, 0]), 20);
    assert_eq!(updated(&[], bound.clone(), [1, 0, 0]), 21);
    assert_eq!(updated(&[], bound, [1, 1, 0]), 0);
    let split = case(0, pair(), WrittenType::Int, vec![variable(1)]);
    assert_eq!(updated(&[], split.clone(), [2, 0, 0]), 20);
    assert_eq!(updated(&[], split.clone(), [3, 1, 0]), 21);
    assert_eq!(updated(&[], split, [3, 2, 0]), 0);
    let fitted = fit(1, pair(), int(3), int(4));
    assert_eq!(updated(&[], fitted.clone(), [2, 0, 0]), 20);
    assert_eq!(updated(&[], fitted.clone(), [3, 0, 0]), 21);
    assert_eq!(updated(&[], fitted, [4, 1, 0]), 0);
}

#[test]
fn a_call_takes_its_slots_before_its_arguments_and_its_stack_after_them() {
    let identity = Function {
        parameters: vec![PlainType::Int],
        result: WrittenType::Int,
        conditions: vec![],
        measure: vec![],
        body: variable(0),
    };
    let functions = [identity];
    let calling = |free| updated(&functions, call(0, vec![int(1)]), free);
    assert_eq!(calling([0, 0, 0]), 21);
    assert_eq!(calling([0, 1, 0]), 20);
    assert_eq!(calling([1, 1, 0]), 22);
    assert_eq!(calling([1, 1, 1]), 0);
}

/// A list of so many Ints.
fn list(length: usize) -> Tree {
    let nil = Tree::Construction {
        type_index: 0,
        constructor: 0,
        size: 1,
        fields: vec![],
    };
    let cons = |tail: Tree, _| Tree::Construction {
        type_index: 0,
        constructor: 1,
        size: 1 + tail.size(),
        fields: vec![Rc::new(Tree::Int(0)), Rc::new(tail)],
    };
    (0..length).fold(nil, cons)
}

#[test]
fn a_size_over_64_comes_before_the_cell() {
    let file = edges::growing_list();
    let grown = |length: usize, free: u32| {
        let board = Board {
            cells: 2 * length as u32 + 1 + free,
            slots: 0,
            calls: 0,
        };
        iterated(&file, &[list(length)], board, b"05\n")
    };
    let longest = LARGEST_SIZE - 1;
    assert_eq!(grown(longest, 0), (20, 2));
    assert_eq!(grown(longest, 1), (23, 2));
    assert_eq!(grown(longest - 1, 1), (20, 2));
    assert_eq!(grown(longest - 1, 2), (0, 0));
}

/// A list channel, and a node that holds it in a field or as its own value.
fn holding(k: usize, update: Expression, node: SizedType) -> File {
    File {
        types: vec![
            definition(&[&[], &[Field::Int, Field::Own]]),
            definition(&[
                &[],
                &[Field::Named {
                    type_index: 0,
                    size: k,
                }],
            ]),
        ],
        functions: vec![],
        inputs: vec![Input {
            declared: declared(0, 5),
            initial: construction(0, 0, vec![]),
        }],
        nodes: vec![Node {
            declared: node,
            initial: construction(1, 0, vec![]),
            update,
        }],
    }
}

const AMPLE: Board = Board {
    cells: 40,
    slots: 5,
    calls: 5,
};

#[test]
fn a_field_above_its_k_is_too_large() {
    let update = construction(1, 1, vec![Expression::Previous(0)]);
    let file = holding(3, update, declared(1, 1));
    let empty = Tree::Construction {
        type_index: 1,
        constructor: 0,
        size: 1,
        fields: vec![],
    };
    let line = writer::input_line(&[Rc::new(list(0))]);
    let held = |length| iterated(&file, &[list(length), empty.clone()], AMPLE, &line);
    assert_eq!(held(2), (0, 0));
    assert_eq!(held(3), (23, 4));
}

#[test]
fn a_nodes_value_above_its_declared_size_is_too_large() {
    let mut file = holding(3, Expression::Channel(0), declared(0, 3));
    file.nodes[0].initial = construction(0, 0, vec![]);
    let given = |length| {
        let line = writer::input_line(&[Rc::new(list(length))]);
        iterated(&file, &[list(0), list(0)], AMPLE, &line)
    };
    assert_eq!(given(2), (0, 0));
    assert_eq!(given(3), (23, 4));
}

#[test]
fn an_inputs_heap_names_that_inputs_frame() {
    let mut file = holding(3, Expression::Channel(0), declared(0, 5));
    file.nodes[0].initial = construction(0, 0, vec![]);
    let line = writer::input_line(&[Rc::new(list(4))]);
    let board = Board { cells: 10, ..AMPLE };
    assert_eq!(iterated(&file, &[list(0), list(0)], board, &line), (20, 3));
}

#[test]
fn each_node_starts_with_all_slots_and_calls() {
    let bound = || let_in(int(1), variable(0));
    let node = || Node {
        declared: SizedType::Int,
        initial: int(0),
        update: bound(),
    };
    let file = File {
        nodes: vec![node(), node(), node()],
        ..File::default()
    };
    let board = Board {
        cells: 10,
        slots: 1,
        calls: 0,
    };
    let zero = || Tree::Int(0);
    let channels = [zero(), zero(), zero()];
    assert_eq!(iterated(&file, &channels, board, b"05\n"), (0, 0));
}
