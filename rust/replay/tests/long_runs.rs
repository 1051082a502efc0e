//! Long runs: listing 3, top10sum and ten generated files on exactly the boards that they need; every answer is 0 or 19, and
//! the channels are the plain machine's.

mod support;

use evaluator::stack::with_deep_stack;
use replay::long::{files, run};
use support::say;

/// Gives the files so many lines in all, and says how they were answered.
fn give(lines: usize, seed: u64) {
    let counts = with_deep_stack(move || {
        let files = files(seed);
        let each = lines.div_ceil(files.len());
        let counts = files.iter().map(|(_, file)| run(file, each, seed));
        counts.collect::<Vec<_>>()
    });
    let counts = counts.expect("every line is answered as it should be");
    let taken: usize = counts.iter().map(|count| count.taken).sum();
    let refused: usize = counts.iter().map(|count| count.refused).sum();
    assert!(counts.iter().all(|count| count.taken > 0));
    assert!(refused > 0 && taken + refused >= lines);
    say(&format!(
        "{taken} lines taken and {refused} refused with 19, as by the plain machine"
    ));
}

#[test]
fn twenty_four_thousand_lines() {
    give(24_000, 61);
}

#[test]
#[ignore = "takes minutes: cargo test --test long_runs -- --ignored, or tools/run-long"]
fn a_million_lines() {
    give(1_000_000, 67);
}
