//! `06` and `07` (document 02, R-2): the right side only where it is needed, and
//! one new cell after what was evaluated.

mod support;

use evaluator::answer::Board;
use evaluator::limits::LARGEST_SIZE;
use evaluator::state::State;
use evaluator::syntax::{Expression, Operator};
use evaluator::value::Tree;
use generator::build::operation;
use generator::sides::{file_of, right_side, Costly};
use generator::writer;
use std::rc::Rc;
use support::lists::list_of;
use support::Lent;

/// Operator and left side: the right side is evaluated, or the left decides.
const NEEDED: [(Operator, bool); 2] = [(Operator::And, true), (Operator::Or, false)];
const DECIDED: [(Operator, bool); 2] = [(Operator::And, false), (Operator::Or, true)];

/// What is lent beside the cells of state and line.
#[derive(Clone, Copy)]
struct Free {
    cells: u32,
    slots: u32,
    calls: u32,
}

const AMPLE: Free = Free {
    cells: 40,
    slots: 16,
    calls: 4,
};

/// The number of an iteration on a full long list, with an empty list in the
/// line, and the new value of the node, whose last one is given.
fn iterated(update: Expression, last: bool, free: Free) -> (u32, bool) {
    let file = file_of(update);
    let no = || Rc::new(Tree::Bool(false));
    let last = Rc::new(Tree::Bool(last));
    let channels = [no(), list_of(0), list_of(LARGEST_SIZE - 1), last];
    let line = writer::input_line(&[no(), list_of(0)]);
    let cells = |trees: &[Rc<Tree>]| trees.iter().map(|tree| tree.cells() as u32).sum::<u32>();
    let board = Board {
        cells: cells(&channels) + cells(&[no(), list_of(0)]) + free.cells,
        slots: free.slots,
        calls: free.calls,
    };
    let mut lent = Lent::holding(board, channels.iter().map(Rc::as_ref));
    let answer = lent.iterate(&writer::text(&file), &line);
    let state = State::new(lent.state);
    let held = state.cell(state.channels()[channels.len() - 1]).content;
    (answer.number, held != 0)
}

/// A right side, what is lent to it, and the refusal that it meets.
fn refused(costly: Costly) -> (Expression, Free, u32) {
    let (free, number) = match costly {
        Costly::Cells => (Free { cells: 8, ..AMPLE }, 20),
        Costly::Slots => (Free { slots: 7, ..AMPLE }, 21),
        Costly::Calls | Costly::Search => (AMPLE, 22),
        Costly::Large => (AMPLE, 23),
    };
    (right_side(costly, 8), free, number)
}

#[test]
fn a_right_side_that_is_needed_brings_its_refusal() {
    for costly in Costly::ALL {
        for (operator, left) in NEEDED {
            let (right, free, number) = refused(costly);
            let update = operation(operator, Expression::Bool(left), right);
            let answered = iterated(update, left, free).0;
            assert_eq!(answered, number, "{costly:?} after {left}");
        }
    }
}

#[test]
fn a_left_side_that_decides_gives_the_value_whatever_the_right_one_is() {
    for costly in Costly::ALL {
        for (operator, left) in DECIDED {
            let (right, free, _) = refused(costly);
            let update = operation(operator, Expression::Bool(left), right);
            let answered = iterated(update, !left, free);
            assert_eq!(answered, (0, left), "{costly:?} after {left}");
        }
    }
}

/// The cells that an operation takes: one less is refused with 20.
fn cells_taken(operator: Operator, left: Expression, right: Expression) -> u32 {
    let number = |cells| {
        let free = Free { cells, ..AMPLE };
        let update = operation(operator, left.clone(), right.clone());
        iterated(update, false, free).0
    };
    let taken = (0..AMPLE.cells).find(|cells| number(*cells) == 0);
    let taken = taken.expect("enough is lent");
    assert!((0..taken).all(|cells| number(cells) == 20));
    taken
}

#[test]
fn each_takes_one_cell_more_than_what_was_evaluated() {
    let held = || Expression::Channel(0);
    let constant = |value| Expression::Bool(value);
    for (operator, left) in DECIDED {
        assert_eq!(cells_taken(operator, constant(left), constant(left)), 2);
    }
    for (operator, left) in NEEDED {
        assert_eq!(cells_taken(operator, constant(left), constant(left)), 3);
        assert_eq!(cells_taken(operator, constant(left), held()), 2);
    }
    assert_eq!(cells_taken(Operator::And, held(), held()), 1);
    assert_eq!(cells_taken(Operator::Or, held(), held()), 1);
}
