//! Gives the proved library a full state and a line that is not allowed, for an instruction counter: the call ends behind the check
//! of the state. The first argument names the state; with `refused` for the second its first word is out of range, so that the
//! check ends there, and the difference of the two is what the check takes. Without arguments the cells, words and names of the
//! states are written.

use evaluator::answer::{Answer, Board, Refusal};
use evaluator::limits::BOARD_CELLS;
use evaluator::stack::{with_deep_stack, STACK_BYTES};
use generator::full::{full_states, FullState};
use generator::writer;
use paugmeln::{iterate_on_this_stack, STACK_NEEDED};
use replay::engine::Buffers;
use replay::library::{answer, loan, sizes};
use std::hint::black_box;

const _: () = assert!(STACK_BYTES > STACK_NEEDED + (1 << 20));

/// # Safety
///
/// `STACK_NEEDED` bytes of this stack are free.
#[inline(never)]
#[no_mangle]
unsafe fn counted_line(text: &[u8], buffers: &mut Buffers) -> Answer {
    let (text, board) = (black_box(text), sizes(Board::LARGEST));
    // SAFETY: the caller has seen to the stack.
    answer(unsafe { iterate_on_this_stack(text, board, b"", loan(buffers)) })
}

fn answer_is(full: FullState, refused: bool) {
    let text = writer::text(&full.file);
    let mut buffers = Buffers::new(Board::LARGEST, full.words);
    let mut expected = Refusal::InputLine;
    if refused {
        buffers.state[0] = BOARD_CELLS + 1;
        expected = Refusal::Loan;
    }
    // SAFETY: this thread has more stack than is needed, by the assertion above.
    let found = unsafe { counted_line(&text, &mut buffers) };
    assert_eq!(found.number, expected.number());
}

fn main() {
    let words: Vec<String> = std::env::args().skip(1).collect();
    let states = full_states().into_iter();
    let Some(name) = words.first().cloned() else {
        return states.for_each(|full| {
            let words = &full.words;
            println!("{} {} {}", words[0], words.len(), full.name);
        });
    };
    let refused = words.get(1).is_some_and(|word| word == "refused");
    let full = states.filter(move |full| full.name == name);
    let done = with_deep_stack(move || full.map(|full| answer_is(full, refused)).count());
    assert_eq!(done.expect("an answer"), 1, "one state of this name");
}
