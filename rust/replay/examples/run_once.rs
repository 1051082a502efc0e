//! Starts the file named by the first argument on the largest board and gives it those lines of the file named by the second
//! that it allows, with the proved library and with the Rust evaluator, for an instruction counter. Writes how many there were.

use evaluator::answer::{Answer, Board};
use evaluator::instances::Instance;
use evaluator::limits::{state_words, INSTANCES};
use evaluator::line;
use evaluator::machine;
use evaluator::reader;
use evaluator::stack::{with_deep_stack, STACK_BYTES};
use paugmeln::{iterate_on_this_stack, start_on_this_stack, LIST_RECORDS, STACK_NEEDED};
use replay::engine::Buffers;
use replay::library::{answer, loan, sizes};
use replay::reference;
use std::hint::black_box;

const _: () = assert!(STACK_BYTES > STACK_NEEDED + (1 << 20));

/// # Safety
///
/// `STACK_NEEDED` bytes of this stack are free.
#[inline(never)]
#[no_mangle]
unsafe fn counted_library_start(
    text: &[u8],
    list: &mut [paugmeln::Instance],
    buffers: &mut Buffers,
) -> Answer {
    let (text, board) = (black_box(text), sizes(Board::LARGEST));
    // SAFETY: the caller has seen to the stack.
    answer(unsafe { start_on_this_stack(text, board, list, loan(buffers)) })
}

/// # Safety
///
/// The same.
#[inline(never)]
#[no_mangle]
unsafe fn counted_library_line(text: &[u8], line: &[u8], buffers: &mut Buffers) -> Answer {
    let (text, board) = (black_box(text), sizes(Board::LARGEST));
    // SAFETY: the caller has seen to the stack.
    answer(unsafe { iterate_on_this_stack(text, board, line, loan(buffers)) })
}

#[inline(never)]
#[no_mangle]
fn counted_reference_start(text: &[u8], records: &mut [Instance], buffers: &mut Buffers) -> Answer {
    machine::start(
        black_box(text),
        Board::LARGEST,
        records,
        reference::loan(buffers),
    )
}

#[inline(never)]
#[no_mangle]
fn counted_reference_line(text: &[u8], line: &[u8], buffers: &mut Buffers) -> Answer {
    machine::iterate(
        black_box(text),
        Board::LARGEST,
        line,
        reference::loan(buffers),
    )
}

fn lent() -> Buffers {
    Buffers::new(Board::LARGEST, vec![0; state_words(Board::LARGEST.cells)])
}

/// Runs both over the lines and compares what they leave.
fn both(text: &[u8], lines: &[u8]) -> usize {
    let [mut proved, mut rust] = [lent(), lent()];
    let mut list = vec![paugmeln::Instance::EMPTY; LIST_RECORDS];
    let mut records = vec![Instance::default(); INSTANCES];
    // SAFETY: this thread has more stack than is needed, by the assertion above.
    let started = unsafe { counted_library_start(text, &mut list, &mut proved) };
    assert_eq!(
        started,
        counted_reference_start(text, &mut records, &mut rust)
    );
    let file = reader::read(text).expect("a readable file");
    let lines = lines.split_inclusive(|character| *character == b'\n');
    let allowed = lines.filter(|line| line::read(&file, line).is_some());
    allowed
        .map(|line| {
            // SAFETY: the same.
            let found = unsafe { counted_library_line(text, line, &mut proved) };
            assert_eq!(found, counted_reference_line(text, line, &mut rust));
            assert_eq!(proved, rust);
        })
        .count()
}

fn main() {
    let [text, lines] = [1, 2].map(|at| {
        let name = std::env::args().nth(at);
        std::fs::read(name.expect("the names of a rule file and of its lines"))
            .expect("a readable file")
    });
    let count = with_deep_stack(move || both(&text, &lines));
    println!("{}", count.expect("both answer"));
}
