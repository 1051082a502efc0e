//! Reads the file named by the argument once with the proved reader and once with the Rust one, for an instruction counter.

use evaluator::stack::with_deep_stack;
use replay::reading;
use std::hint::black_box;

#[inline(never)]
#[no_mangle]
fn counted_library(text: &[u8]) -> (u32, u32) {
    reading::by_library(black_box(text))
}

#[inline(never)]
#[no_mangle]
fn counted_reference(text: &[u8]) -> (u32, u32) {
    reading::by_reference(black_box(text))
}

fn main() {
    let name = std::env::args().nth(1).expect("the name of a rule file");
    let text = std::fs::read(name).expect("a readable file");
    let answers = with_deep_stack(move || (counted_library(&text), counted_reference(&text)));
    let (proved, reference) = answers.expect("both answer");
    assert_eq!(proved, reference);
    println!("{}", reading::report(proved));
}
