//! Gives listing 3, top10sum and ten generated files so many lines in all as the argument says, on exactly the boards that they
//! need, and compares with the plain machine.

use evaluator::stack::with_deep_stack;
use replay::long::{files, run};
use std::time::Instant;

const SEED: u64 = 2026;

fn main() {
    let lines = std::env::args().nth(1).and_then(|count| count.parse().ok());
    let lines: usize = lines.expect("a number of lines");
    let done = with_deep_stack(move || {
        let files = files(SEED);
        let each = lines.div_ceil(files.len());
        for (name, file) in &files {
            let begun = Instant::now();
            let count = run(file, each, SEED);
            let seconds = begun.elapsed().as_secs_f32();
            println!("{name}: {count:?} in {seconds:.1} s");
        }
    });
    done.expect("every line is answered as it should be");
}
