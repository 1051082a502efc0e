//! The check of a lent state on states that use every cell of the largest board, whole and with one word changed.

use evaluator::answer::{Board, Refusal};
use evaluator::limits::{BOARD_CELLS, CELL_WORDS, HEADER_WORDS};
use evaluator::stack::with_deep_stack;
use generator::full::{full_states, FullState};
use generator::writer;
use replay::engine::{Buffers, Engine};
use replay::library::Library;
use replay::reference::Reference;
use std::collections::BTreeMap;

/// The number that both engines answer on these words to a line that is not allowed: 19 where they are a valid state.
fn verdict(text: &[u8], words: &[u32]) -> u32 {
    let [mut proved, mut rust] = [(); 2].map(|()| Buffers::new(Board::LARGEST, words.to_vec()));
    let found = Library.iterate(text, Board::LARGEST, b"", &mut proved);
    let expected = Reference::new().iterate(text, Board::LARGEST, b"", &mut rust);
    assert_eq!(found, expected);
    assert_eq!(proved.state, words);
    assert_eq!(proved, rust);
    found.number
}

/// How often each number is answered with one word of the cells changed, by the word's place in its cell.
fn verdicts_of_changed(full: &FullState) -> BTreeMap<(usize, u32), usize> {
    let text = writer::text(&full.file);
    let mut words = full.words.clone();
    let mut counts = BTreeMap::new();
    for at in HEADER_WORDS..words.len() {
        words[at] += 1;
        let place = (at - HEADER_WORDS) % CELL_WORDS;
        *counts.entry((place, verdict(&text, &words))).or_default() += 1;
        words[at] -= 1;
    }
    counts
}

#[test]
fn a_state_of_all_cells_is_valid() {
    let states = full_states();
    let done = with_deep_stack(move || {
        for full in states {
            assert_eq!(full.words[0], BOARD_CELLS);
            let found = verdict(&writer::text(&full.file), &full.words);
            assert_eq!(found, Refusal::InputLine.number(), "{}", full.name);
        }
    });
    done.expect("both agree");
}

#[test]
fn a_changed_word_of_any_place_in_a_cell_is_judged_alike_and_seen() {
    let states = full_states();
    let done = with_deep_stack(move || {
        for full in states {
            let counts = verdicts_of_changed(&full);
            for place in 0..CELL_WORDS {
                let refused = counts.get(&(place, Refusal::Loan.number()));
                assert!(refused.is_some(), "{}, word {place}: {counts:?}", full.name);
            }
        }
    });
    done.expect("both agree");
}
