//! Checks the file named by the argument once with the proved checker and once with the Rust one, for an instruction counter.

use evaluator::answer::{Answer, Board};
use evaluator::instances::Instance;
use evaluator::limits::INSTANCES;
use evaluator::machine;
use evaluator::stack::{with_deep_stack, STACK_BYTES};
use paugmeln::{check_on_this_stack, LIST_RECORDS, STACK_NEEDED};
use replay::library::{answer, sizes};
use replay::report;
use std::hint::black_box;

const _: () = assert!(STACK_BYTES > STACK_NEEDED + (1 << 20));

/// # Safety
///
/// `STACK_NEEDED` bytes of this stack are free.
#[inline(never)]
#[no_mangle]
unsafe fn counted_library(text: &[u8], list: &mut [paugmeln::Instance]) -> Answer {
    // SAFETY: the caller has seen to the stack.
    answer(unsafe { check_on_this_stack(black_box(text), sizes(Board::LARGEST), list) })
}

#[inline(never)]
#[no_mangle]
fn counted_reference(text: &[u8], records: &mut [Instance]) -> Answer {
    machine::check(black_box(text), Board::LARGEST, records)
}

/// Both answers, given on a stack deep enough for either.
fn both(text: Vec<u8>) -> (Answer, Answer) {
    let answers = with_deep_stack(move || {
        let mut list = vec![paugmeln::Instance::EMPTY; LIST_RECORDS];
        let mut records = vec![Instance::default(); INSTANCES];
        // SAFETY: this thread has more stack than is needed, by the assertion above.
        let proved = unsafe { counted_library(&text, &mut list) };
        (proved, counted_reference(&text, &mut records))
    });
    answers.expect("both answer")
}

fn main() {
    let name = std::env::args().nth(1).expect("the name of a rule file");
    let text = std::fs::read(name).expect("a readable file");
    let (proved, reference) = both(text);
    assert_eq!(proved, reference);
    println!("{}", report::answer(&proved));
}
