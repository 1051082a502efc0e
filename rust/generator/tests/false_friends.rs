//! "False friends" of document 01.

mod support;

use evaluator::answer::Board;
use evaluator::syntax::{Expression, Field, File, Input, Node, SizedType};
use evaluator::value::Tree;
use generator::build::{
    adjust, case, constant, construction, declared, definition, int, variable, written,
};
use generator::writer;
use std::rc::Rc;
use support::lists::{list_of, list_to};
use support::{exact, Lent};

#[test]
fn a_shared_cell_is_kept_once() {
    // The node holds the input twice.
    let pair = construction(0, 0, vec![Expression::Channel(0), Expression::Channel(0)]);
    let file = File {
        types: vec![definition(&[&[Field::Int, Field::Int]])],
        inputs: vec![Input {
            declared: SizedType::Int,
            initial: int(0),
        }],
        nodes: vec![Node {
            declared: declared(0, 1),
            initial: construction(0, 0, vec![int(0), int(0)]),
            update: pair,
        }],
        ..File::default()
    };
    let text = writer::text(&file);
    let answer = Lent::new(Board::LARGEST, 0).check(&text);
    let mut lent = Lent::new(exact(answer.bounds), 0);
    assert_eq!(lent.start(&text), answer);
    assert_eq!(lent.cells_kept(), 4);
    assert_eq!(lent.iterate(&text, b"051100000009\n").number, 0);
    assert_eq!(lent.cells_kept(), 2);
    let nine = || Rc::new(Tree::Int(9));
    let trees = lent.trees(&file);
    assert_eq!(trees[0], nine());
    let pair = Tree::Construction {
        type_index: 0,
        constructor: 0,
        size: 1,
        fields: vec![nine(), nine()],
    };
    assert_eq!(*trees[1], pair);
}

#[test]
fn an_int_is_a_cell_and_has_no_size() {
    let file = list_to(5, SizedType::Int, int(0), int(1));
    let text = writer::text(&file);
    let answer = Lent::new(Board::LARGEST, 0).check(&text);
    let mut lent = Lent::new(exact(answer.bounds), 0);
    lent.start(&text);
    // Four Ints and five constructions: nine cells, size five.
    let line = writer::input_line(&[list_of(4)]);
    assert_eq!(lent.iterate(&text, &line).number, 0);
    assert_eq!(lent.trees(&file)[0].size(), 5);
    assert_eq!(lent.trees(&file)[0].cells(), 9);
}

#[test]
fn the_estimate_splits_the_declared_size() {
    // A list of size 1 in a channel of size 3: the branch of cons is checked
    // at size 2 although it never runs, so its fault is found.
    let wrong = case(
        0,
        Expression::Channel(0),
        written(0, constant(3)),
        vec![adjust(constant(3), construction(0, 0, vec![])), variable(1)],
    );
    let initial = adjust(constant(3), construction(0, 0, vec![]));
    let file = list_to(3, declared(0, 3), initial, wrong);
    let answer = Lent::new(Board::LARGEST, 0).check(&writer::text(&file));
    assert_eq!((answer.number, answer.frame), (11, 3));
}
