//! The proved reader and the Rust reader give the same number and frame.

mod support;

use evaluator::stack::with_deep_stack;
use generator::mixture::Mixture;
use generator::typed::TypedMixture;
use replay::format;
use replay::reading::{by_library, by_reference};
use std::path::Path;
use support::{own_folder, say, shared_folder, stored, Counts};

/// Compares the two on texts; gives how often each number was answered.
fn compared(texts: impl Iterator<Item = Vec<u8>>) -> Counts {
    let mut counts = Counts::new();
    for text in texts {
        let found = by_library(&text);
        let shown = String::from_utf8_lossy(&text);
        assert_eq!(found, by_reference(&text), "for the text {shown}");
        *counts.entry(found.0).or_default() += 1;
    }
    counts
}

fn texts_of(folder: &Path, name: &str) -> Vec<Vec<u8>> {
    let case = |line: &String| format::parse(line).expect("a case").text().to_vec();
    stored(folder, name).iter().map(case).collect()
}

#[test]
fn generated_and_damaged_texts_agree() {
    let counts = with_deep_stack(|| {
        let (mut mixture, mut typed) = (Mixture::new(31), TypedMixture::new(32));
        let strict = (0..24_000).map(|_| mixture.next_case());
        let cases = strict.chain((0..24_000).map(|_| typed.next_case()));
        compared(cases.map(|case| case.text().to_vec()))
    })
    .expect("every text agrees");
    println!("{counts:?}");
    assert!(counts.values().sum::<usize>() >= 40_000);
    assert!((0..=8).all(|number| counts.contains_key(&number)));
}

/// Compares the two on the cases of a file.
fn agree(folder: &Path, name: &str) {
    let texts = texts_of(folder, name);
    let counts = with_deep_stack(move || compared(texts.into_iter()));
    say(&format!(
        "{name}: {:?} read alike",
        counts.expect("every text agrees")
    ));
}

#[test]
fn the_cases_of_this_repository_agree() {
    agree(&own_folder(), "sample.txt");
    agree(&own_folder(), "shared.txt");
    agree(&own_folder(), "stage1.txt");
    agree(&own_folder(), "stage3.txt");
}

#[test]
#[ignore = "needs the shared cases, which run-tests looks for: cargo test -- --ignored"]
fn all_shared_cases_agree() {
    let folder = shared_folder();
    for name in ["edges.txt", "run.txt", "stage1.txt", "stage3.txt"] {
        agree(&folder, name);
    }
}
