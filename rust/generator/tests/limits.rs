//! Files at each limit of the reader, and one step over it.

mod support;

use evaluator::answer::Board;
use evaluator::limits::{NESTING, PARAMETERS, SIZE_VARIABLES, VARIABLES};
use evaluator::syntax::File;
use generator::{edges, writer};
use support::Lent;

fn answered(text: &[u8]) -> (u32, u32) {
    let answer = Lent::new(Board::LARGEST, 0).check(text);
    (answer.number, answer.frame)
}

fn refusal(file: &File) -> (u32, u32) {
    answered(&writer::text(file))
}

#[test]
fn a_text_has_at_most_16384_characters() {
    assert_eq!(answered(&edges::long_text(1)), (1, 0));
    // Long enough is read on: this one line has no LF.
    assert_eq!(answered(&edges::long_text(0)), (2, 1));
}

#[test]
fn expressions_and_sizes_nest_at_most_32() {
    assert_eq!(refusal(&edges::nested_sums(NESTING)), (0, 0));
    assert_eq!(refusal(&edges::nested_sums(NESTING + 1)), (7, 1));
    assert_eq!(refusal(&edges::nested_sizes(NESTING)), (0, 0));
    assert_eq!(refusal(&edges::nested_sizes(NESTING + 1)), (7, 2));
}

#[test]
fn at_most_32_variables_stand_in_scope() {
    assert_eq!(refusal(&edges::bound_variables(VARIABLES)), (0, 0));
    assert_eq!(refusal(&edges::bound_variables(VARIABLES + 1)), (7, 2));
}

#[test]
fn at_most_8_size_variables_stand_in_scope() {
    let splits = SIZE_VARIABLES - 3;
    assert_eq!(refusal(&edges::bound_sizes(PARAMETERS, 0)), (0, 0));
    assert_eq!(refusal(&edges::bound_sizes(PARAMETERS, 1)), (7, 2));
    assert_eq!(refusal(&edges::bound_sizes(3, splits)), (0, 0));
    assert_eq!(refusal(&edges::bound_sizes(3, splits + 1)), (7, 2));
}

#[test]
fn a_type_needs_a_self_free_constructor() {
    assert_eq!(answered(&edges::no_self_free_constructor()), (8, 1));
}
