//! Input lines: allowed ones are taken, every other line is 19.

mod support;

use evaluator::answer::Board;
use evaluator::limits::{LARGEST_SIZE, TEXT_CHARACTERS};
use evaluator::line;
use evaluator::syntax::{Field, File, Input, Node, SizedType};
use generator::build::{construction, declared, definition, int};
use generator::writer;
use support::lists::list_of;
use support::Lent;

const LIST: usize = 0;
const RECORD: usize = 1;
const LISTS: usize = 2;

/// Types: a list of Ints, a record of a Bool and a list of at most 2, a list
/// of the largest lists. One input of the given type.
fn file(declared: SizedType) -> File {
    let list_field = |size| Field::Named {
        type_index: LIST,
        size,
    };
    File {
        types: vec![
            definition(&[&[], &[Field::Int, Field::Own]]),
            definition(&[&[Field::Bool, list_field(2)]]),
            definition(&[&[], &[list_field(LARGEST_SIZE), Field::Own]]),
        ],
        inputs: vec![Input {
            declared,
            initial: construction(LIST, 0, vec![]),
        }],
        nodes: vec![Node {
            declared: SizedType::Int,
            initial: int(0),
            update: int(1),
        }],
        ..File::default()
    }
}

fn allowed(file: &File, line: &str) -> bool {
    line::read(file, line.as_bytes()).is_some()
}

fn assert_refused(file: &File, lines: &[&str]) {
    for line in lines {
        assert!(!allowed(file, line), "{line:?}");
    }
}

#[test]
fn a_line_is_one_line() {
    let file = file(SizedType::Bool);
    assert!(allowed(&file, "051001\n"));
    assert_refused(
        &file,
        &[
            "",
            "\n",
            "051001",
            "051001\n\n",
            "\n051001\n",
            "051001\n051001\n",
        ],
    );
    assert_refused(
        &file,
        &["05 1001\n", "051001\r\n", "05100\n", "041001\n", "05100x\n"],
    );
}

#[test]
fn a_value_is_of_its_type() {
    let file = file(SizedType::Bool);
    assert_refused(
        &file,
        &[
            "051002\n",
            "0510\n",
            "05\n",
            "05100100\n",
            "051100000001\n",
            "05190000\n",
        ],
    );
    let file = self::file(SizedType::Int);
    assert!(allowed(&file, "0511FFFFFFFF\n"));
    assert_refused(
        &file,
        &[
            "0511FFFFFF\n",
            "051001\n",
            "051B01011100000000\n",
            "051200\n",
        ],
    );
}

#[test]
fn a_construction_names_its_type_and_constructor() {
    let file = file(declared(LIST, 2));
    assert!(allowed(&file, "05190000\n"));
    assert!(allowed(&file, "0519000111000000FF190000\n"));
    assert_refused(
        &file,
        &[
            "05190100\n",
            "05190002\n",
            "0519\n",
            "051900\n",
            "051B0102190000\n",
        ],
    );
}

#[test]
fn sizes_are_bounded_at_every_depth() {
    let nil = "190000";
    let one = format!("19000111000000FF{nil}");
    let two = format!("19000111000000FF{one}");
    let file = self::file(declared(LIST, 2));
    assert!(allowed(&file, &format!("05{one}\n")));
    assert!(!allowed(&file, &format!("05{two}\n")));
    let file = self::file(declared(RECORD, 1));
    assert!(allowed(
        &file,
        &format!("0519010010 01{one}\n").replace(' ', "")
    ));
    assert!(!allowed(
        &file,
        &format!("0519010010 01{two}\n").replace(' ', "")
    ));
}

#[test]
fn nesting_has_no_limit_of_its_own() {
    let file = file(declared(LIST, LARGEST_SIZE));
    let longest = writer::input_line(&[list_of(LARGEST_SIZE - 1)]);
    assert!(line::read(&file, &longest).is_some());
    let longer = writer::input_line(&[list_of(LARGEST_SIZE)]);
    assert!(line::read(&file, &longer).is_none());
    let endless = format!("05{}\n", "1900011100000000".repeat(200_000));
    assert!(!allowed(&file, &endless));
}

#[test]
fn a_line_may_be_longer_than_a_file() {
    let bytes = writer::input_bytes(&[list_of(LARGEST_SIZE - 1)]);
    let inner: String = bytes[1..]
        .iter()
        .map(|byte| format!("{byte:02X}"))
        .collect();
    let lists = format!("190201{inner}").repeat(LARGEST_SIZE - 1);
    let line = format!("05{lists}190200\n");
    assert!(line.len() > TEXT_CHARACTERS);
    assert!(allowed(&file(declared(LISTS, LARGEST_SIZE)), &line));
    assert!(!allowed(&file(declared(LISTS, LARGEST_SIZE - 1)), &line));
}

#[test]
fn a_line_without_inputs_is_05_alone() {
    let mut file = file(SizedType::Bool);
    file.inputs.clear();
    let text = writer::text(&file);
    let mut lent = Lent::new(Board::LARGEST, 0);
    assert_eq!(lent.start(&text).number, 0);
    assert_eq!(lent.iterate(&text, b"05\n").number, 0);
    assert_eq!(lent.iterate(&text, b"0500\n").number, 19);
    assert_eq!(lent.iterate(&text, b"").number, 19);
}
