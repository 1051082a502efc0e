//! `13` names any channel (document 02, R-3): the order of an iteration, and 25
//! where a node reads itself.

mod support;

use evaluator::answer::{Answer, Board, Bounds, Fault, Refusal};
use evaluator::limits::NODES;
use evaluator::machine::strict_text;
use evaluator::readings::{check, order};
use evaluator::syntax::{Expression, File};
use evaluator::value::Tree;
use generator::random::Random;
use generator::readings::{
    file_of, longest_chain, random_readings, single_readings, Place, Reading, Readings,
};
use generator::writer;
use std::rc::Rc;
use support::{exact, Lent};

/// Nodes that read those given, each in the left side of an operation.
fn reading(nodes: &[&[usize]]) -> File {
    let place = Place::Left;
    let readings = |nodes: &&[usize]| {
        let nodes = nodes.iter();
        nodes.map(|node| Reading { node: *node, place }).collect()
    };
    file_of(&nodes.iter().map(readings).collect::<Readings>())
}

#[test]
fn the_lowest_node_whose_readings_are_done_comes_next() {
    let rows: [(&[&[usize]], &[usize]); 6] = [
        (&[&[], &[0], &[1, 0]], &[0, 1, 2]),
        (&[&[1], &[]], &[1, 0]),
        (&[&[2], &[], &[1]], &[1, 2, 0]),
        (&[&[3], &[], &[], &[]], &[1, 2, 3, 0]),
        (&[&[2], &[0], &[], &[]], &[2, 0, 1, 3]),
        (&[&[3, 1], &[2], &[], &[1]], &[2, 1, 3, 0]),
    ];
    for (nodes, expected) in rows {
        assert_eq!(order(&reading(nodes)), expected, "{nodes:?}");
    }
    let reversed: Vec<usize> = (0..NODES).rev().collect();
    assert_eq!(order(&longest_chain(false)), reversed);
}

/// The refusal that names the frame of a node.
fn reads_itself(file: &File, node: usize) -> Fault {
    Refusal::ReadsItself.in_frame(file.channel_frame(file.node_channel(node)))
}

#[test]
fn the_lowest_node_that_reads_itself_is_named() {
    let rows: [(&str, &[&[usize]], usize); 9] = [
        ("directly", &[&[0]], 0),
        ("behind another", &[&[], &[1]], 1),
        ("a ring of two", &[&[1], &[0]], 0),
        ("a ring of three", &[&[], &[3], &[1], &[2]], 1),
        ("a lower node that only reads one", &[&[1], &[1]], 1),
        ("or a ring", &[&[1], &[3], &[], &[4], &[3]], 3),
        ("a higher node that only reads one", &[&[0], &[0]], 0),
        ("two rings", &[&[], &[4], &[3], &[2], &[1]], 1),
        ("a node between the two of a ring", &[&[2], &[2], &[0]], 0),
    ];
    for (what, nodes, named) in rows {
        let file = reading(nodes);
        assert_eq!(check(&file), Err(reads_itself(&file, named)), "{what}");
    }
    let file = longest_chain(true);
    assert_eq!(check(&file), Err(reads_itself(&file, 0)));
}

#[test]
fn a_reading_counts_wherever_it_stands() {
    for place in Place::ALL {
        let itself = file_of(&single_readings(place, [0]));
        assert_eq!(check(&itself), Err(reads_itself(&itself, 0)), "{place:?}");
        let mut readings = single_readings(place, [1, 1]);
        readings[1].clear();
        let later = file_of(&readings);
        let answer = Lent::new(Board::LARGEST, 0).check(&writer::text(&later));
        assert_eq!((answer.number, order(&later)), (0, vec![1, 0]), "{place:?}");
    }
}

/// What check, start and an iteration answer with these buffers.
fn answers(lent: &mut Lent, file: &File) -> [Answer; 3] {
    let text = writer::text(file);
    let line = writer::input_line(&[Rc::new(Tree::Int(1))]);
    [
        lent.check(&text),
        lent.start(&text),
        lent.iterate(&text, &line),
    ]
}

#[test]
fn it_comes_after_9_and_before_18() {
    let mut file = reading(&[&[], &[2], &[1]]);
    let refused = Answer::from(reads_itself(&file, 1));
    let mut over = Board::LARGEST;
    over.calls += 1;
    for board in [Board::LARGEST, over] {
        assert_eq!(answers(&mut Lent::new(board, 0), &file), [refused; 3]);
    }
    let mut short = Lent::new(Board::LARGEST, 0);
    short.instances.clear();
    short.state.clear();
    assert_eq!(answers(&mut short, &file), [refused; 3]);
    file.nodes[2].initial = Expression::Bool(true);
    let types = Refusal::PlainTypes.in_frame(file.channel_frame(file.node_channel(2)));
    assert_eq!(answers(&mut short, &file), [Answer::from(types); 3]);
}

#[test]
fn the_writer_does_not_look_for_it() {
    let text = writer::text(&longest_chain(true));
    assert_eq!(strict_text(&text), Ok(text));
}

/// An iteration with so many cells beside those of the state and of the line.
fn iterated(file: &File, cells: u32) -> Answer {
    let channels = vec![Tree::Int(1); file.channel_count()];
    let board = Board {
        cells: (channels.len() + file.inputs.len()) as u32 + cells,
        ..Board::LARGEST
    };
    let line = writer::input_line(&[Rc::new(Tree::Int(1))]);
    Lent::holding(board, &channels).iterate(&writer::text(file), &line)
}

#[test]
fn heap_is_spent_by_the_node_that_is_being_given_its_value() {
    let file = reading(&[&[2], &[], &[]]);
    let spent = |node| Refusal::HeapSpent.in_frame(file.channel_frame(file.node_channel(node)));
    // A node that reads none takes one cell, one that reads another three more.
    let rows = [(0, 1), (1, 2), (2, 0), (5, 0)];
    for (cells, node) in rows {
        assert_eq!(iterated(&file, cells), Answer::from(spent(node)));
    }
    assert_eq!(iterated(&file, 6), Answer::accepted(Bounds::default()));
}

/// The same nodes in a table of another order, in which place `at` has node
/// `table[at]`.
fn moved(readings: &Readings, table: &[usize]) -> Readings {
    let place_of = |node| table.iter().position(|known| *known == node);
    let read = |reading: &Reading| Reading {
        node: place_of(reading.node).expect("a node of the table"),
        ..*reading
    };
    let nodes = table.iter();
    nodes
        .map(|node| readings[*node].iter().map(read).collect())
        .collect()
}

/// The values of the nodes after each of some lines.
fn values(file: &File, lines: &[Vec<u8>]) -> (Bounds, Vec<Vec<Rc<Tree>>>) {
    let text = writer::text(file);
    let bounds = Lent::new(Board::LARGEST, 0).check(&text).bounds;
    let mut lent = Lent::new(exact(bounds), 0);
    assert_eq!(lent.start(&text), Answer::accepted(bounds));
    let after = |line: &Vec<u8>| {
        assert_eq!(lent.iterate(&text, line).number, 0);
        lent.trees(file).split_off(file.inputs.len())
    };
    (bounds, lines.iter().map(after).collect())
}

#[test]
fn values_and_bounds_do_not_depend_on_the_order_of_the_table() {
    let mut random = Random::new(71);
    let lines = [3, -5, 7].map(|value| writer::input_line(&[Rc::new(Tree::Int(value))]));
    for _ in 0..400 {
        let count = random.between(2, NODES);
        let readings = random_readings(&mut random, &(0..count).collect::<Vec<usize>>());
        let table = random.order(count);
        let (bounds, of_first) = values(&file_of(&readings), &lines);
        let (others, of_other) = values(&file_of(&moved(&readings, &table)), &lines);
        let expected = of_first.iter().map(|values| {
            let values = table.iter().map(|node| values[*node].clone());
            values.collect::<Vec<Rc<Tree>>>()
        });
        assert_eq!(bounds, others);
        assert!(expected.eq(of_other));
    }
}
