//! The answers of document 01's time, of which some are no longer given.
//!
//! Document 02, R-1, narrows refusal 2: lower-case digits, spaces between pairs, CR LF, empty lines and lines that start with a
//! semicolon pass. R-3 narrows refusal 6: `13` names any channel. The shared cases `edges` and `run` were answered before, and
//! have texts that were refused for one of these alone. Of such a case the answer of the Rust evaluator is expected; of every
//! other the answer on file.

use super::numbers;
use evaluator::answer::Refusal;
use std::collections::BTreeMap;

/// The refusals that narrow.
const NARROWED: [Refusal; 2] = [Refusal::Line, Refusal::Index];

/// How often a number on file, the first, has become another one.
pub type Changes = BTreeMap<(u32, u32), usize>;

/// The number that a report begins with.
pub fn first_number(report: &str) -> u32 {
    numbers(report).next().expect("an answer")
}

/// The numbers on file and now of a case whose text was refused for what now passes.
fn narrowed(on_file: &str, by_rust: &str) -> Option<(u32, u32)> {
    let (before, now) = (first_number(on_file), first_number(by_rust));
    let narrows = NARROWED.iter().any(|refusal| refusal.number() == before);
    (narrows && now != before).then_some((before, now))
}

/// The answer that is expected of a case.
pub fn expected<'a>(on_file: &'a str, by_rust: &'a str) -> &'a str {
    match narrowed(on_file, by_rust) {
        Some(_) => by_rust,
        None => on_file,
    }
}

/// How often each number is now answered where it was one that narrows.
pub fn counted<'a>(pairs: impl Iterator<Item = (&'a str, &'a str)>) -> Changes {
    let mut changes = Changes::new();
    for (on_file, by_rust) in pairs {
        if let Some(change) = narrowed(on_file, by_rust) {
            *changes.entry(change).or_default() += 1;
        }
    }
    changes
}
