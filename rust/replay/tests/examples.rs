//! The rule files of `examples/` are accepted with the numbers that their page states, and have the strict texts that they
//! were first written as.

mod support;

use evaluator::answer::{Answer, Board, Bounds};
use evaluator::instances::Instance;
use evaluator::limits::INSTANCES;
use evaluator::machine::check;
use evaluator::reader;
use evaluator::readings::order;
use generator::examples::{listing3, top10sum};
use generator::writer;
use support::{example, strict_example};

fn checked(text: &[u8]) -> Answer {
    let mut instances = vec![Instance::default(); INSTANCES];
    check(text, Board::LARGEST, &mut instances)
}

fn accepted(heap: u32, environment: u32, stack: u32) -> Answer {
    Answer::accepted(Bounds {
        heap,
        environment,
        stack,
    })
}

#[test]
fn the_two_frame_file() {
    assert_eq!(checked(&example("accumulate")), accepted(4, 0, 0));
    let strict = b"03011100000000\n04011100000000170014011300\n";
    assert_eq!(strict_example("accumulate"), strict);
}

#[test]
fn allowed_colourants() {
    assert_eq!(checked(&example("allowed")), accepted(38, 22, 6));
}

#[test]
fn a_dose_above_its_correction() {
    let text = example("dose");
    assert_eq!(checked(&text), accepted(22, 12, 3));
    let file = reader::read(&text).expect("a file that is read");
    assert_eq!(order(&file), [2, 1, 0]);
}

#[test]
fn listing_3() {
    assert_eq!(checked(&example("listing3")), accepted(25, 18, 5));
    assert_eq!(strict_example("listing3"), writer::text(&listing3()));
}

#[test]
fn top_10_sum() {
    // its sum `1 + n + m` is grouped from the left, the built one's from the right
    assert_eq!(checked(&example("top10sum")), accepted(217, 126, 12));
    assert_eq!(checked(&writer::text(&top10sum())), accepted(217, 126, 12));
}
