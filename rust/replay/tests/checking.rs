//! The proved checker and the Rust checker give the same answer and leave the same records in the lent list.

mod support;

use evaluator::answer::{Board, Refusal};
use evaluator::stack::with_deep_stack;
use generator::case::Case;
use generator::mixture::Mixture;
use generator::typed::TypedMixture;
use paugmeln::LIST_RECORDS;
use replay::checking::{asked, by_library, by_reference, report_by_library};
use replay::format;
use replay::reference::Reference;
use replay::run::run;
use std::path::Path;
use support::narrowed::expected;
use support::{own_folder, say, shared_folder, stored, Counts};

/// Compares the two on one file; gives the number answered.
fn compared(board: Board, text: &[u8]) -> u32 {
    let found = by_library(text, board, LIST_RECORDS);
    let expected = by_reference(text, board, LIST_RECORDS);
    let shown = String::from_utf8_lossy(text);
    let answers = (found.answer, expected.answer);
    assert!(
        found == expected,
        "{answers:?} by the library and by Rust, or unlike lists, for {board:?} and the text {shown}"
    );
    found.answer.number
}

fn compared_all(cases: impl Iterator<Item = Case>) -> Counts {
    let mut counts = Counts::new();
    for case in cases {
        let (board, text) = asked(&case);
        *counts.entry(compared(board, text)).or_default() += 1;
    }
    counts
}

#[test]
fn generated_and_damaged_files_agree() {
    let counts = with_deep_stack(|| {
        let (mut mixture, mut typed) = (Mixture::new(47), TypedMixture::new(48));
        let strict = (0..22_000).map(|_| mixture.next_case());
        compared_all(strict.chain((0..6_000).map(|_| typed.next_case())))
    })
    .expect("every file agrees");
    println!("{counts:?}");
    assert!(counts.values().sum::<usize>() >= 20_000);
    let mut expected = (0..=Refusal::Loan.number()).chain([Refusal::ReadsItself.number()]);
    assert!(expected.all(|number| counts.contains_key(&number)));
}

/// The parts of an answer that the checker gives; none for an iteration or a writing.
fn check_of(answer: &str) -> Option<String> {
    let parts: Vec<&str> = answer.split(';').take(2).collect();
    answer.starts_with("check:").then(|| parts.join(";"))
}

/// Compares the two on the cases of a file, and the reports with the answers on file.
fn agree(folder: &Path, name: &str) {
    let cases = stored(folder, &format!("{name}.txt"));
    let answers = stored(folder, &format!("{name}.answers.txt"));
    assert_eq!(cases.len(), answers.len());
    let counts = with_deep_stack(move || {
        let cases: Vec<Case> = cases
            .iter()
            .map(|line| format::parse(line).expect("a case"))
            .collect();
        for (case, answer) in cases.iter().zip(&answers) {
            let by_rust = run(&mut Reference::new(), case);
            if let Some(expected) = check_of(expected(answer, &by_rust)) {
                assert_eq!(report_by_library(case), expected);
            }
        }
        compared_all(cases.into_iter())
    });
    let counts = counts.expect("every file agrees");
    say(&format!("{name}.txt: {counts:?} checked alike"));
}

#[test]
fn the_cases_of_this_repository_agree() {
    agree(&own_folder(), "sample");
    agree(&own_folder(), "instances");
    agree(&own_folder(), "shared");
    agree(&own_folder(), "stage1");
    agree(&own_folder(), "stage3");
}

#[test]
#[ignore = "needs the shared cases, which run-tests looks for: cargo test -- --ignored"]
fn all_shared_cases_agree() {
    let folder = shared_folder();
    for name in ["edges", "run", "stage1", "stage3"] {
        agree(&folder, name);
    }
}
