//! "Tins to try" of document 01.

mod support;

use evaluator::answer::{Answer, Board, Bounds};
use evaluator::estimate::Estimate;
use evaluator::sizes;
use evaluator::syntax::{Expression, File, Node, Operator, SizedType};
use evaluator::value::Tree;
use generator::build::{adjust, constant, construction, declared, fit, int, operation};
use generator::examples::listing3::{INSERT, SEARCH, TAIL};
use generator::examples::{listing3, top10sum};
use generator::random::Random;
use generator::writer;
use std::rc::Rc;
use support::lists::{list_of, list_to};
use support::{exact, Lent};

const LISTING3_BOUNDS: Bounds = Bounds {
    heap: 25,
    environment: 18,
    stack: 5,
};

fn board(cells: u32, slots: u32, calls: u32) -> Board {
    Board {
        cells,
        slots,
        calls,
    }
}

fn refused(number: u32, bounds: Bounds) -> Answer {
    Answer {
        number,
        frame: 0,
        bounds,
    }
}

/// Result size, environment, heap and stack of an instance of listing 3.
fn listing3_instance(function: usize, size: usize) -> (usize, u32, u32, u32) {
    let file = listing3();
    let mut lent = Lent::new(Board::LARGEST, 0);
    assert_eq!(lent.check(&writer::text(&file)).number, 0);
    let wanted = |known: &&evaluator::instances::Instance| {
        known.function() == Some(function as u32) && known.sizes().eq([size as u8])
    };
    let record = lent.instances.iter().find(wanted).expect("an instance");
    let result = sizes::sized(&file.functions[function].result, &[size]);
    let result = result.expect("a size in range").size();
    let Estimate {
        environment,
        heap,
        stack,
    } = record.estimate();
    (result, environment, heap, stack)
}

#[test]
fn instances_of_listing3_have_the_numbers_of_figure_7() {
    assert_eq!(listing3_instance(INSERT, 1), (2, 0, 2, 0));
    assert_eq!(listing3_instance(INSERT, 2), (3, 4, 3, 1));
    assert_eq!(listing3_instance(INSERT, 4), (5, 12, 5, 3));
    assert_eq!(listing3_instance(TAIL, 5), (4, 2, 1, 0));
    assert_eq!(listing3_instance(SEARCH, 5), (0, 16, 5, 4));
}

#[test]
fn listing3_whole_needs_25_18_5_and_ten_instances() {
    let text = writer::text(&listing3());
    let mut lent = Lent::new(board(25, 18, 5), 0);
    assert_eq!(lent.check(&text), Answer::accepted(LISTING3_BOUNDS));
    assert_eq!(lent.instances_entered(), 10);
    assert_eq!(lent.start(&text), Answer::accepted(LISTING3_BOUNDS));
}

#[test]
fn listing3_is_refused_by_smaller_boards() {
    let text = writer::text(&listing3());
    let boards = [(24, 18, 5, 15), (25, 17, 5, 16), (25, 18, 4, 17)];
    for (cells, slots, calls, number) in boards {
        let mut lent = Lent::new(board(cells, slots, calls), 0);
        assert_eq!(lent.check(&text), refused(number, LISTING3_BOUNDS));
        assert_eq!(lent.start(&text), refused(number, LISTING3_BOUNDS));
    }
}

fn listing3_line(reset: bool, v: i32) -> Vec<u8> {
    writer::input_line(&[Rc::new(Tree::Bool(reset)), Rc::new(Tree::Int(v))])
}

/// The Ints of a list, head first.
fn ints(list: &Tree) -> Vec<i32> {
    match list {
        Tree::Construction { fields, .. } => match (fields.first(), fields.get(1)) {
            (Some(head), Some(tail)) => match **head {
                Tree::Int(head) => [vec![head], ints(tail)].concat(),
                _ => vec![],
            },
            _ => vec![],
        },
        Tree::Bool(_) | Tree::Int(_) => vec![],
    }
}

#[test]
fn listing3_keeps_the_last_four_values_and_detects_duplicates() {
    let file = listing3();
    let text = writer::text(&file);
    let mut lent = Lent::new(exact(LISTING3_BOUNDS), 0);
    lent.start(&text);
    let mut history: Vec<i32> = vec![];
    let mut random = Random::new(3);
    for _ in 0..200 {
        let (reset, v) = (random.one_in(9), random.below(7) as i32);
        let detected = history.contains(&v);
        history.push(v);
        let forgotten = match reset {
            true => history.len() - 1,
            false => history.len().saturating_sub(4),
        };
        history.drain(..forgotten);
        assert_eq!(lent.iterate(&text, &listing3_line(reset, v)).number, 0);
        let trees = lent.trees(&file);
        assert_eq!(ints(&trees[2]), history);
        assert_eq!(*trees[3], Tree::Bool(detected));
    }
}

#[test]
fn top10sum_is_accepted_and_sums_the_ten_largest() {
    let file = top10sum();
    let text = writer::text(&file);
    let answer = Lent::new(Board::LARGEST, 0).check(&text);
    assert_eq!(answer.number, 0);
    let mut lent = Lent::new(exact(answer.bounds), 0);
    assert_eq!(lent.start(&text), answer);
    let mut random = Random::new(10);
    let mut largest: Vec<i32> = vec![];
    for _ in 0..120 {
        let x = random.below(1000) as i32 - 100;
        largest.push(x);
        largest.sort_by_key(|value| -value);
        largest.truncate(10);
        let line = writer::input_line(&[Rc::new(Tree::Int(x))]);
        assert_eq!(lent.iterate(&text, &line).number, 0);
        let sum: i32 = largest.iter().sum();
        assert_eq!(*lent.trees(&file)[2], Tree::Int(sum));
    }
}

/// One node of type Int, run for one line.
fn computed(update: Expression) -> Rc<Tree> {
    let file = File {
        nodes: vec![Node {
            declared: SizedType::Int,
            initial: int(0),
            update,
        }],
        ..File::default()
    };
    let text = writer::text(&file);
    let mut lent = Lent::new(board(20, 0, 0), 0);
    assert_eq!(lent.start(&text).number, 0);
    assert_eq!(lent.iterate(&text, b"05\n").number, 0);
    lent.trees(&file)[0].clone()
}

#[test]
fn sums_and_products_wrap() {
    let sum = operation(Operator::Add, int(2_147_483_647), int(1));
    assert_eq!(*computed(sum), Tree::Int(-2_147_483_648));
    let product = operation(Operator::Multiply, int(65_536), int(65_536));
    assert_eq!(*computed(product), Tree::Int(0));
}

#[test]
fn adj_from_5_to_4_lowers() {
    let initial = adjust(constant(4), construction(0, 0, vec![]));
    let update = adjust(constant(4), Expression::Channel(0));
    let file = list_to(5, declared(0, 4), initial, update);
    let answer = Lent::new(Board::LARGEST, 0).check(&writer::text(&file));
    assert_eq!((answer.number, answer.frame), (11, 3));
}

#[test]
fn fit_to_4_passes_size_4_and_not_size_5() {
    let update = fit(4, Expression::Channel(0), int(1), int(2));
    let file = list_to(5, SizedType::Int, int(0), update);
    let text = writer::text(&file);
    let answer = Lent::new(Board::LARGEST, 0).check(&text);
    let mut lent = Lent::new(exact(answer.bounds), 0);
    assert_eq!(lent.start(&text).number, 0);
    for (length, taken) in [(3, 1), (4, 2)] {
        let line = writer::input_line(&[list_of(length)]);
        assert_eq!(lent.iterate(&text, &line).number, 0);
        assert_eq!(*lent.trees(&file)[1], Tree::Int(taken));
    }
}

#[test]
fn the_two_frame_file_needs_4_0_0_and_sums_5_and_7() {
    let text = b"03011100000000\n04011100000000170014011300\n";
    let bounds = Bounds {
        heap: 4,
        environment: 0,
        stack: 0,
    };
    let mut lent = Lent::new(Board::LARGEST, 0);
    assert_eq!(lent.check(text), Answer::accepted(bounds));
    let file = evaluator::reader::read(text).expect("a file");
    let mut lent = Lent::new(exact(bounds), 0);
    assert_eq!(lent.start(text), Answer::accepted(bounds));
    for (line, node) in [(b"051100000005\n", 5), (b"051100000007\n", 12)] {
        assert_eq!(lent.iterate(text, line), Answer::default());
        assert_eq!(*lent.trees(&file)[1], Tree::Int(node));
        assert_eq!(lent.cells_kept(), 2);
    }
}
