//! The proved library and the Rust evaluator answer whole cases alike: check, start and lines, iterations on given words, and
//! strict texts.

mod support;

use evaluator::answer::{Answer, Board, Refusal};
use evaluator::stack::with_deep_stack;
use generator::mixture::Mixture;
use generator::typed::TypedMixture;
use paugmeln::Instance;
use replay::engine::{Buffers, Engine};
use replay::format;
use replay::library::Library;
use replay::reference::Reference;
use replay::run::{difference, run};
use support::{numbers, own_folder, stored, Counts};

const GENERATED: usize = 32_000;
const TYPED: usize = 16_000;

#[test]
fn generated_and_damaged_cases_agree() {
    let counts = with_deep_stack(|| {
        let (mut mixture, mut typed) = (Mixture::new(53), TypedMixture::new(59));
        let mut rust = Reference::new();
        let mut counts = Counts::new();
        let strict = (0..GENERATED).map(|_| mixture.next_case());
        for case in strict.chain((0..TYPED).map(|_| typed.next_case())) {
            let found = run(&mut Library, &case);
            let expected = run(&mut rust, &case);
            assert!(found == expected, "for {}", format::write(&case));
            numbers(&found).for_each(|number| *counts.entry(number).or_default() += 1);
        }
        counts
    })
    .expect("every case agrees");
    println!("{counts:?}");
    let mut expected = 0..=Refusal::ReadsItself.number();
    assert!(expected.all(|number| counts.contains_key(&number)));
}

/// An engine that leaves the state untouched.
struct Lazy(Reference);

impl Engine for Lazy {
    fn check(&mut self, text: &[u8], board: Board, list: &mut [Instance]) -> Answer {
        self.0.check(text, board, list)
    }

    fn start(
        &mut self,
        text: &[u8],
        board: Board,
        list: &mut [Instance],
        buffers: &mut Buffers,
    ) -> Answer {
        self.0.start(text, board, list, buffers)
    }

    fn iterate(&mut self, text: &[u8], board: Board, line: &[u8], buffers: &mut Buffers) -> Answer {
        let state = buffers.state.clone();
        let answer = self.0.iterate(text, board, line, buffers);
        buffers.state = state;
        answer
    }

    fn write(&mut self, text: &[u8], buffer: &mut [u8]) -> Answer {
        self.0.write(text, buffer)
    }
}

#[test]
fn an_evaluator_that_leaves_the_state_is_seen_to_differ() {
    let cases = stored(&own_folder(), "sample.txt");
    let differ = with_deep_stack(move || {
        let (mut lazy, mut rust) = (Lazy(Reference::new()), Reference::new());
        let cases = cases
            .iter()
            .map(|line| format::parse(line).expect("a case"));
        let seen = |case| difference(&mut lazy, &mut rust, &case);
        cases.filter_map(seen).count()
    });
    assert!(differ.expect("every case is answered") > 50);
}
