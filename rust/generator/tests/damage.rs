//! Files damaged byte by byte: check, start and iteration refuse them alike.

mod support;

use evaluator::answer::{Answer, Board, Refusal};
use evaluator::limits::{state_words, LARGEST_SIZE};
use evaluator::stack::with_deep_stack;
use evaluator::syntax::File;
use generator::damage::damage_frames;
use generator::examples::{listing3, top10sum};
use generator::files::random_file;
use generator::random::Random;
use generator::writer;
use support::Lent;

const BOARD: Board = Board {
    cells: 30,
    slots: 20,
    calls: 5,
};

/// Check and start answer alike; an iteration answers 1 to 9 and 25 like them,
/// and on a state of zeros 18 where they come further.
fn assert_alike(text: &[u8]) -> Answer {
    let mut lent = Lent::new(BOARD, 0);
    let checked = lent.check(text);
    assert_eq!(lent.start(text), checked);
    lent.state = vec![0; state_words(BOARD.cells)];
    let iterated = lent.iterate(text, b"05\n");
    let mut before = (1..=Refusal::PlainTypes.number()).chain([Refusal::ReadsItself.number()]);
    match before.any(|number| number == checked.number) {
        true => assert_eq!(iterated, checked),
        false => assert_eq!(iterated.number, Refusal::Loan.number()),
    }
    checked
}

/// A frame's lines are numbered from 1, and no frame is named that is not
/// there, but for the one after the last.
fn names_a_frame(answer: Answer, frames: usize) -> bool {
    let none_named = matches!(answer.number, 0 | 1 | 15..=19);
    match none_named {
        true => answer.frame == 0,
        false => (1..=frames as u32 + 1).contains(&answer.frame),
    }
}

/// Each byte of each frame replaced by each of these, one at a time.
fn replace_each_byte(file: &File) -> usize {
    let frames = writer::frames(file);
    let values = [0, 1, 2, 3, 4, 9, 0x11, 0x12, 0x19, 0x1D];
    let limits = [LARGEST_SIZE as u8, LARGEST_SIZE as u8 + 1, 0xFF];
    let values: Vec<u8> = values.into_iter().chain(limits).collect();
    let places = frames.iter().enumerate();
    let places = places.flat_map(|(frame, bytes)| (0..bytes.len()).map(move |at| (frame, at)));
    let changes = places.flat_map(|place| values.iter().map(move |value| (place, *value)));
    let mut tried = 0;
    for ((frame, at), value) in changes {
        let mut damaged = frames.clone();
        damaged[frame][at] = value;
        let answer = assert_alike(&writer::text_of_frames(&damaged));
        assert!(names_a_frame(answer, damaged.len()));
        tried += 1;
    }
    tried
}

#[test]
fn each_byte_of_the_papers_files_is_damaged() {
    let tried = with_deep_stack(|| {
        let files = [listing3(), top10sum()];
        files.iter().map(replace_each_byte).sum::<usize>()
    });
    assert!(tried.expect("every file is answered") > 4_000);
}

#[test]
fn generated_files_are_damaged_more_than_once() {
    with_deep_stack(|| {
        let mut random = Random::new(12);
        for _ in 0..4_000 {
            let mut frames = writer::frames(&random_file(&mut random, false));
            (0..random.between(1, 4)).for_each(|_| damage_frames(&mut random, &mut frames));
            let answer = assert_alike(&writer::text_of_frames(&frames));
            assert!(names_a_frame(answer, frames.len()));
        }
    })
    .expect("every file is answered");
}
