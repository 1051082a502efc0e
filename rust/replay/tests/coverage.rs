//! The generated mixtures meet every refusal.

mod support;

use evaluator::answer::Refusal;
use evaluator::stack::with_deep_stack;
use generator::case::Case;
use generator::mixture::Mixture;
use generator::typed::TypedMixture;
use replay::format;
use replay::reference::Reference;
use replay::run::run;
use support::{numbers, Counts};

const CASES: usize = 6_000;

/// How often each number is given in generated cases.
fn counted(mut next_case: impl FnMut() -> Case) -> Counts {
    let mut engine = Reference::new();
    let reports = (0..CASES).map(|_| run(&mut engine, &next_case()));
    let mut counts = Counts::new();
    for report in reports {
        numbers(&report).for_each(|number| *counts.entry(number).or_default() += 1);
    }
    counts
}

/// Every number is given but for those left out.
fn assert_all_met(next_case: impl FnMut() -> Case + Send + 'static, left_out: &[Refusal]) {
    let counts = with_deep_stack(move || counted(next_case));
    let counts = counts.expect("every case is answered");
    println!("{counts:?}");
    let asked = |number: &u32| left_out.iter().all(|refusal| refusal.number() != *number);
    let numbers = (0..=Refusal::ReadsItself.number()).filter(asked);
    let missing: Vec<u32> = numbers
        .filter(|number| !counts.contains_key(number))
        .collect();
    assert!(missing.is_empty(), "no case is answered with {missing:?}");
}

#[test]
fn every_number_but_the_writers_is_met() {
    let mut mixture = Mixture::new(2023);
    assert_all_met(move || mixture.next_case(), &[Refusal::WriteBuffer]);
}

#[test]
fn every_number_is_met_with_typed_texts() {
    let mut mixture = TypedMixture::new(2024);
    assert_all_met(move || mixture.next_case(), &[]);
}

#[test]
fn cases_are_reproducible_and_survive_their_format() {
    let (mut one, mut other) = (Mixture::new(5), Mixture::new(5));
    let (mut typed, mut again) = (TypedMixture::new(5), TypedMixture::new(5));
    for _ in 0..500 {
        let pairs = [
            (one.next_case(), other.next_case()),
            (typed.next_case(), again.next_case()),
        ];
        for (case, again) in pairs {
            assert_eq!(case, again);
            assert_eq!(format::parse(&format::write(&case)), Some(case));
        }
    }
}
