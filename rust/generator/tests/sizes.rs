//! Refusals 10 to 14, their order and the frames they name.

mod support;

use evaluator::answer::Board;
use evaluator::limits::{INSTANCES, LARGEST_NUMBER, LARGEST_SIZE};
use evaluator::stack::with_deep_stack;
use evaluator::syntax::{
    Condition, Expression, Field, File, Function, Node, PlainType, Relation, Size, SizedType,
    TypeDefinition, WrittenType,
};
use generator::build::{
    adjust, call, case, constant, construction, declared, definition, difference, fit, int,
    size_variable, sum, variable, written,
};
use generator::depths::{deepest_bodies, Level};
use generator::{edges, writer};
use support::Lent;

const LIST: usize = 0;
const LIST_TYPE: PlainType = PlainType::Named(LIST);

fn refusal(file: &File) -> (u32, u32) {
    let text = writer::text(file);
    let checked = with_deep_stack(move || Lent::new(Board::LARGEST, 0).check(&text));
    let answer = checked.expect("an answer");
    (answer.number, answer.frame)
}

fn list() -> TypeDefinition {
    definition(&[&[], &[Field::Int, Field::Own]])
}

fn nil() -> Expression {
    construction(LIST, 0, vec![])
}

fn nil_of(size: u8) -> Expression {
    adjust(constant(size), nil())
}

fn cons(tail: Expression) -> Expression {
    construction(LIST, 1, vec![int(1), tail])
}

/// A node that holds a list of the given size.
fn list_node(size: usize, update: Expression) -> Node {
    Node {
        declared: declared(LIST, size),
        initial: nil_of(size as u8),
        update,
    }
}

fn int_node(update: Expression) -> Node {
    Node {
        declared: SizedType::Int,
        initial: int(0),
        update,
    }
}

/// The list type, then the functions, then the nodes: frames 1, 2, ...
fn file(functions: Vec<Function>, nodes: Vec<Node>) -> File {
    File {
        types: vec![list()],
        functions,
        inputs: vec![],
        nodes,
    }
}

/// A function of one list.
fn function(result: WrittenType, body: Expression) -> Function {
    Function {
        parameters: vec![LIST_TYPE],
        result,
        conditions: vec![],
        measure: vec![],
        body,
    }
}

fn int_of_list(body: Expression) -> Function {
    function(WrittenType::Int, body)
}

#[test]
fn adj_judges_its_written_size_then_the_expression_then_itself() {
    let lowered = adjust(constant(2), nil_of(3));
    let inside = adjust(constant(0), lowered.clone());
    let equal = adjust(constant(3), nil_of(3));
    assert_eq!(refusal(&file(vec![], vec![list_node(3, inside)])).0, 10);
    assert_eq!(refusal(&file(vec![], vec![list_node(2, lowered)])).0, 11);
    assert_eq!(refusal(&file(vec![], vec![list_node(3, equal)])).0, 0);
    let outside = adjust(constant(LARGEST_SIZE as u8 + 1), nil());
    assert_eq!(refusal(&file(vec![], vec![list_node(3, outside)])).0, 10);
}

#[test]
fn a_construction_over_64_is_10_and_a_field_not_its_k_is_11() {
    assert_eq!(refusal(&edges::growing_list()), (10, 2));
    let boxed = definition(&[&[Field::Named {
        type_index: LIST,
        size: 3,
    }]]);
    let holding = |list| construction(1, 0, vec![list]);
    let boxing = |list| File {
        types: vec![self::list(), boxed.clone()],
        functions: vec![],
        inputs: vec![],
        nodes: vec![Node {
            declared: declared(1, 1),
            initial: holding(nil_of(3)),
            update: holding(list),
        }],
    };
    assert_eq!(refusal(&boxing(nil_of(3))), (0, 0));
    assert_eq!(refusal(&boxing(nil())), (11, 3));
    assert_eq!(refusal(&boxing(nil_of(4))), (11, 3));
}

#[test]
fn a_fit_may_be_above_the_subject_and_its_variable_has_exactly_k() {
    let fitted = |k, arm: Expression| fit(k, Expression::Previous(0), arm, nil_of(3));
    let exact = list_node(3, fitted(3, variable(0)));
    assert_eq!(refusal(&file(vec![], vec![exact])).0, 0);
    let above = list_node(3, fitted(5, variable(0)));
    assert_eq!(refusal(&file(vec![], vec![above])).0, 11);
    let below = list_node(3, fitted(2, adjust(constant(3), variable(0))));
    assert_eq!(refusal(&file(vec![], vec![below])).0, 0);
}

#[test]
fn a_case_judges_its_return_type_before_its_branches_and_skips_what_cannot_be() {
    let cases = |size: u8, scrutinee: Expression, at_cons: Expression| {
        let returned = written(LIST, constant(size));
        let update = case(LIST, scrutinee, returned, vec![nil_of(3), at_cons]);
        refusal(&file(vec![], vec![list_node(3, update)])).0
    };
    let lowering = || adjust(constant(1), nil_of(2));
    assert_eq!(cases(0, nil_of(2), lowering()), 10);
    assert_eq!(cases(3, nil_of(2), lowering()), 11);
    assert_eq!(cases(3, nil(), lowering()), 0);
    assert_eq!(cases(3, nil_of(4), variable(1)), 0);
    assert_eq!(cases(3, nil_of(3), variable(1)), 11);
}

#[test]
fn a_branch_is_checked_at_every_split() {
    let tree = definition(&[&[], &[Field::Own, Field::Own]]);
    let leaf = || construction(0, 0, vec![]);
    let seven = || adjust(constant(7), leaf());
    // The left part goes from 1 to 5: it fits 5 and not 4.
    let update = |size: u8| {
        let grown = adjust(constant(7), adjust(constant(size), variable(0)));
        case(0, seven(), written(0, constant(7)), vec![seven(), grown])
    };
    let file = |size| File {
        types: vec![tree.clone()],
        nodes: vec![Node {
            declared: declared(0, 7),
            initial: seven(),
            update: update(size),
        }],
        ..File::default()
    };
    assert_eq!(refusal(&file(5)), (0, 0));
    assert_eq!(refusal(&file(4)), (11, 2));
}

#[test]
fn a_branch_that_names_only_the_size_of_a_part_is_checked_at_every_split() {
    let tree = definition(&[&[], &[Field::Own, Field::Own]]);
    let leaf_of = |size: Size| adjust(size, construction(0, 0, vec![]));
    // The left part goes from 1 to 5, so the limit less it falls to 0 at 5.
    let update = |limit: u8| {
        let rest = difference(constant(limit), size_variable(0));
        let grown = adjust(constant(7), leaf_of(rest));
        let branches = vec![leaf_of(constant(7)), grown];
        case(0, leaf_of(constant(7)), written(0, constant(7)), branches)
    };
    let file = |limit| File {
        types: vec![tree.clone()],
        nodes: vec![Node {
            declared: declared(0, 7),
            initial: leaf_of(constant(7)),
            update: update(limit),
        }],
        ..File::default()
    };
    assert_eq!(refusal(&file(8)), (0, 0));
    assert_eq!(refusal(&file(5)), (10, 2));
}

#[test]
fn splits_that_a_body_does_not_name_take_no_time() {
    // Two cases of 37,820 splits each, one inside the other.
    let wide = definition(&[&[], &[Field::Own; 4]]);
    let full = || adjust(constant(LARGEST_SIZE as u8), nil());
    let split = |inner| case(0, full(), WrittenType::Int, vec![int(0), inner]);
    let file = File {
        types: vec![wide],
        nodes: vec![int_node(split(split(int(1))))],
        ..File::default()
    };
    assert_eq!(refusal(&file), (0, 0));
}

#[test]
fn a_call_names_the_calls_frame_or_the_functions() {
    let calling = |known: Function| {
        let node = int_node(call(0, vec![nil_of(3)]));
        refusal(&file(vec![known], vec![node]))
    };
    let mut conditional = int_of_list(int(1));
    conditional.conditions = vec![condition(Relation::Less, size_variable(0), constant(3))];
    assert_eq!(calling(conditional.clone()), (12, 3));
    conditional.conditions[0].relation = Relation::AtMost;
    assert_eq!(calling(conditional), (0, 0));
    assert_eq!(calling(int_of_list(call(0, vec![variable(0)]))), (13, 2));
    let lists = |known: Function| {
        let node = list_node(3, call(0, vec![nil_of(3)]));
        refusal(&file(vec![known], vec![node]))
    };
    let emptied = written(LIST, difference(size_variable(0), constant(3)));
    assert_eq!(lists(function(emptied, variable(0))), (10, 2));
    let grown = written(LIST, sum(size_variable(0), constant(1)));
    assert_eq!(lists(function(grown, variable(0))), (11, 2));
}

fn condition(relation: Relation, left: Size, right: Size) -> Condition {
    Condition {
        relation,
        left,
        right,
    }
}

#[test]
fn conditions_compare_whole_numbers_of_any_sign() {
    let below_zero = difference(size_variable(0), constant(255));
    let mut known = int_of_list(int(1));
    known.conditions = vec![
        condition(Relation::Less, below_zero.clone(), constant(0)),
        condition(Relation::Less, constant(200), constant(255)),
        condition(Relation::Equal, below_zero.clone(), below_zero),
    ];
    let node = int_node(call(0, vec![nil_of(3)]));
    assert_eq!(refusal(&file(vec![known], vec![node])), (0, 0));
}

#[test]
fn a_self_call_needs_a_falling_measure_where_it_is_reached() {
    let shorter = call(0, vec![variable(2)]);
    let split = case(LIST, variable(0), WrittenType::Int, vec![int(0), shorter]);
    let calling = |measure: Vec<usize>, size: u8| {
        let mut known = int_of_list(split.clone());
        known.measure = measure;
        let node = int_node(call(0, vec![nil_of(size)]));
        refusal(&file(vec![known], vec![node]))
    };
    assert_eq!(calling(vec![0], 5), (0, 0));
    assert_eq!(calling(vec![], 5), (13, 2));
    assert_eq!(calling(vec![], 1), (0, 0));
}

#[test]
fn unreached_functions_have_no_sizes_checked() {
    let lowering = function(written(LIST, constant(1)), nil_of(0));
    let node = int_node(int(1));
    assert_eq!(refusal(&file(vec![lowering], vec![node])), (0, 0));
}

#[test]
fn initial_values_come_before_updates() {
    let mut late = int_node(int(1));
    late.declared = declared(LIST, 2);
    late.initial = nil_of(3);
    late.update = nil_of(2);
    let early = list_node(3, nil_of(0));
    assert_eq!(refusal(&file(vec![], vec![early, late])), (11, 3));
}

#[test]
fn a_1025th_instance_is_one_too_many() {
    let side = 32;
    let just = edges::instances(side, INSTANCES / side);
    let over = edges::instances(side + 1, INSTANCES / side);
    assert_ne!(refusal(&just).0, 14);
    assert_eq!(refusal(&over), (14, 2));
}

#[test]
fn as_many_bodies_as_instances_can_stand_inside_one_another() {
    for level in Level::ALL {
        let text = writer::text(&deepest_bodies(level));
        let checked = with_deep_stack(move || Lent::new(Board::LARGEST, 0).check(&text));
        let answer = checked.expect("an answer");
        // Refused by the board alone.
        assert!((15..=17).contains(&answer.number), "{level:?}: {answer:?}");
        // The identity is an instance too, but its body is not the last.
        let bodies = match level {
            Level::Argument => INSTANCES - 1,
            _ => INSTANCES,
        };
        assert_eq!(answer.bounds.stack as usize, bodies, "{level:?}");
    }
}

#[test]
fn numbers_stop_at_65535() {
    let answer = Lent::new(Board::LARGEST, 0).check(&writer::text(&edges::doubling(20)));
    assert_eq!((answer.number, answer.frame), (15, 0));
    assert_eq!(answer.bounds.heap, LARGEST_NUMBER);
    assert_eq!(answer.bounds.stack, 20);
}

#[test]
fn a_construction_is_one_larger_than_its_own_fields() {
    let grown = || cons(adjust(constant(2), nil()));
    assert_eq!(refusal(&file(vec![], vec![list_node(3, grown())])), (0, 0));
    assert_eq!(refusal(&file(vec![], vec![list_node(4, grown())])), (11, 2));
}
