//! The proved checker at the limits, compared with the Rust one each time.

mod support;

use evaluator::answer::{Answer, Board};
use evaluator::limits::{
    BOARD_CALLS, BOARD_CELLS, BOARD_SLOTS, FIELDS, FUNCTIONS, INSTANCES, LARGEST_NUMBER, VARIABLES,
};
use evaluator::stack::with_deep_stack;
use evaluator::syntax::{Expression, File, Function, Node, PlainType, SizedType, WrittenType};
use generator::build::{call, int, variable};
use generator::case::Case;
use generator::depths::{deepest_bodies, Level};
use generator::examples::{listing3, top10sum};
use generator::{edges, growth, writer};
use paugmeln::{Instance, LIST_RECORDS};
use replay::checking::{self, by_library, by_reference, report_by_library, Checked};
use replay::library::Library;
use std::collections::BTreeSet;
use support::lists;

/// What both checkers leave, lent a list of so many records.
fn checked(text: &[u8], board: Board, records: usize) -> Checked {
    let found = by_library(text, board, records);
    let text = text.to_vec();
    let expected = with_deep_stack(move || by_reference(&text, board, records));
    let expected = expected.expect("an answer");
    assert_eq!(found.answer, expected.answer);
    assert!(found.list == expected.list, "unlike lists");
    found
}

fn on_largest(file: &File) -> Checked {
    checked(&writer::text(file), Board::LARGEST, LIST_RECORDS)
}

fn number_and_frame(answer: Answer) -> (u32, u32) {
    (answer.number, answer.frame)
}

fn refusal(file: &File) -> (u32, u32) {
    number_and_frame(on_largest(file).answer)
}

fn all_empty(list: &[Instance]) -> bool {
    list.iter().all(|record| *record == Instance::EMPTY)
}

/// The board that lends exactly what is needed.
fn exact(answer: Answer) -> Board {
    Board {
        cells: answer.bounds.heap,
        slots: answer.bounds.environment,
        calls: answer.bounds.stack,
    }
}

#[test]
fn a_file_enters_1024_instances_and_not_1025() {
    let side = 32;
    let full = on_largest(&edges::instances(side, INSTANCES / side));
    assert_eq!(number_and_frame(full.answer), (0, 0));
    assert_eq!(paugmeln::instances(&full.list).len(), INSTANCES);
    let over = on_largest(&edges::instances(side + 1, INSTANCES / side));
    assert_eq!(number_and_frame(over.answer), (14, 2));
    assert!(all_empty(&over.list));
}

#[test]
fn a_longer_list_does_not_make_room_for_a_1025th_instance() {
    let text = writer::text(&edges::instances(33, 32));
    let found = checked(&text, Board::LARGEST, 2 * LIST_RECORDS);
    assert_eq!(number_and_frame(found.answer), (14, 2));
}

#[test]
fn thirty_two_variables_stand_in_scope_and_not_33() {
    assert_eq!(refusal(&edges::bound_variables(VARIABLES)), (0, 0));
    assert_eq!(refusal(&edges::bound_variables(VARIABLES + 1)), (7, 2));
}

#[test]
fn estimates_stop_at_65535() {
    for functions in [16, 20, FUNCTIONS] {
        let answer = on_largest(&edges::doubling(functions)).answer;
        assert_eq!(number_and_frame(answer), (15, 0));
        assert_eq!(answer.bounds.heap, LARGEST_NUMBER, "{functions}");
        assert_eq!(answer.bounds.stack as usize, functions);
    }
}

#[test]
fn the_deepest_bodies_are_checked() {
    for level in Level::ALL {
        let found = on_largest(&deepest_bodies(level));
        assert!((15..=17).contains(&found.answer.number), "{level:?}");
        assert!(found.answer.bounds.stack as usize >= INSTANCES - 1);
        assert!(all_empty(&found.list));
    }
}

#[test]
fn every_file_at_a_limit_agrees() {
    for text in edges::all() {
        checked(&text, Board::LARGEST, LIST_RECORDS);
    }
}

#[test]
fn branches_of_one_to_four_own_fields_agree_at_every_size_to_16() {
    for (fields, size) in (1..=FIELDS).flat_map(|fields| (1..=16).map(move |size| (fields, size))) {
        assert_eq!(refusal(&growth::splits(fields, size)), (0, 0));
    }
}

/// The largest board with one part replaced by another number.
fn altered(part: usize, number: u32) -> Board {
    let mut parts = [BOARD_CELLS, BOARD_SLOTS, BOARD_CALLS];
    parts[part] = number;
    let [cells, slots, calls] = parts;
    Board {
        cells,
        slots,
        calls,
    }
}

#[test]
fn a_board_is_at_most_its_maximum() {
    let text = writer::text(&listing3());
    let at = |board| number_and_frame(checked(&text, board, LIST_RECORDS).answer);
    assert_eq!(at(Board::LARGEST), (0, 0));
    for (part, most) in [BOARD_CELLS, BOARD_SLOTS, BOARD_CALLS].iter().enumerate() {
        assert_eq!(at(altered(part, most + 1)), (18, 0));
        assert_eq!(at(altered(part, u32::MAX)), (18, 0));
        assert_eq!(at(altered(part, 0)), (15 + part as u32, 0));
    }
}

#[test]
fn a_board_one_short_is_refused_by_its_own_number() {
    for file in [listing3(), top10sum(), edges::instances(32, 32)] {
        let text = writer::text(&file);
        let board = exact(on_largest(&file).answer);
        let at = |board| number_and_frame(checked(&text, board, LIST_RECORDS).answer);
        assert_eq!(at(board), (0, 0));
        let Board {
            cells,
            slots,
            calls,
        } = board;
        assert_eq!(
            at(Board {
                cells: cells - 1,
                ..board
            }),
            (15, 0)
        );
        assert_eq!(
            at(Board {
                slots: slots - 1,
                ..board
            }),
            (16, 0)
        );
        assert_eq!(
            at(Board {
                calls: calls - 1,
                ..board
            }),
            (17, 0)
        );
    }
}

#[test]
fn a_list_has_at_least_1024_records() {
    let text = writer::text(&listing3());
    for records in lists::LENGTHS {
        let expected = match records < LIST_RECORDS {
            true => (18, 0),
            false => (0, 0),
        };
        let found = checked(&text, Board::LARGEST, records).answer;
        assert_eq!(number_and_frame(found), expected, "{records} records");
    }
}

#[test]
fn refusal_18_follows_9_and_precedes_10() {
    let (cells, short) = (BOARD_CELLS + 1, LIST_RECORDS - 1);
    let over = Board {
        cells,
        ..Board::LARGEST
    };
    // An Int where a Bool is declared, and a list adjusted to size 65.
    let plain = "040010001100000000\n";
    let sized = "010200020102\n040200011900001B0141190000\n";
    for (board, records) in [(over, LIST_RECORDS), (Board::LARGEST, short), (over, short)] {
        let at = |text: &str| number_and_frame(checked(text.as_bytes(), board, records).answer);
        assert_eq!(at(plain), (9, 1));
        assert_eq!(at(sized), (18, 0));
    }
    let lent = checked(sized.as_bytes(), Board::LARGEST, LIST_RECORDS);
    assert_eq!(number_and_frame(lent.answer), (10, 2));
}

#[test]
fn what_a_list_of_any_length_held_before_does_not_matter() {
    let mut numbers = BTreeSet::new();
    for (text, board, records) in lists::trials() {
        let expected = checked(&text, board, records);
        for list in lists::filled_before(records) {
            let found = checking::checked(&mut Library, &text, board, list);
            let answer = found.answer;
            assert!(found == expected, "{answer:?} with {records} records");
        }
        numbers.insert(expected.answer.number);
    }
    assert_eq!(numbers, lists::NUMBERS.into());
}

#[test]
fn listing_3_has_ten_instances() {
    let found = on_largest(&listing3());
    assert_eq!(
        exact(found.answer),
        Board {
            cells: 25,
            slots: 18,
            calls: 5
        }
    );
    let entered = paugmeln::instances(&found.list);
    assert_eq!(entered.len(), 10);
    // insert at 4, tail at 5 and search at 5, each with environment, heap and stack
    for (function, size, numbers) in [(0, 4, [12, 5, 3]), (2, 5, [2, 1, 0]), (1, 5, [16, 5, 4])] {
        let mut entered = entered.iter();
        let known = entered.find(|known| known.function == function && known.sizes[0] == size);
        let known = known.expect("an instance of that size");
        assert_eq!([known.environment, known.heap, known.stack], numbers);
    }
}

/// Functions of an Int with these bodies, and a node that calls function 0, then function 1.
fn calling_twice(bodies: [Expression; 2]) -> File {
    let function = |body| Function {
        parameters: vec![PlainType::Int],
        result: WrittenType::Int,
        conditions: vec![],
        measure: vec![],
        body,
    };
    File {
        functions: bodies.map(function).to_vec(),
        nodes: vec![Node {
            declared: SizedType::Int,
            initial: int(0),
            update: call(1, vec![call(0, vec![int(1)])]),
        }],
        ..File::default()
    }
}

#[test]
fn an_instance_of_zeros_keeps_its_place_and_is_entered_once() {
    // Function 0 gives its argument back: its record is 0 throughout.
    let again = call(0, vec![call(0, vec![variable(0)])]);
    let found = on_largest(&calling_twice([variable(0), again]));
    assert_eq!(number_and_frame(found.answer), (0, 0));
    let entered: Vec<u32> = paugmeln::instances(&found.list)
        .iter()
        .map(|known| known.function)
        .collect();
    assert_eq!(entered, [0, 1]);
}

#[test]
fn an_instance_of_zeros_that_is_the_only_one_leaves_empty_records() {
    let mut file = calling_twice([variable(0), variable(0)]);
    file.functions.pop();
    file.nodes[0].update = call(0, vec![int(1)]);
    let found = on_largest(&file);
    assert_eq!(number_and_frame(found.answer), (0, 0));
    assert!(all_empty(&found.list));
    // A report shows it nevertheless.
    let report = report_by_library(&Case::Run {
        board: Board::LARGEST,
        text: writer::text(&file),
        lines: vec![],
    });
    assert_eq!(report, "check:0,0,2,1,1;inst:0::0:0:0");
}
