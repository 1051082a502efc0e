//! Agreement of both engines with cases whose answers are on file.

mod support;

use evaluator::stack::with_deep_stack;
use generator::case::Case;
use replay::engine::Engine;
use replay::format;
use replay::library::Library;
use replay::reference::Reference;
use replay::run::run;
use std::collections::BTreeMap;
use std::path::Path;
use support::narrowed::{counted, expected, first_number, Changes};
use support::{own_folder, say, shared_folder, stored};

/// The answers of an engine.
fn answered(engine: &mut dyn Engine, cases: &[Case]) -> Vec<String> {
    cases.iter().map(|case| run(engine, case)).collect()
}

/// A line whose answer on file is no longer given, and the number that it is now answered with.
type Changed = (usize, u32);

/// Answers every case of a file by the library and by Rust and compares, leaving out the answers on file for the lines given;
/// gives the number of cases, and how often a number is now answered where it was one that narrows.
fn agree(folder: &Path, name: &str, changed: &[Changed]) -> (usize, Changes) {
    let cases = stored(folder, &format!("{name}.txt"));
    let on_file = stored(folder, &format!("{name}.answers.txt"));
    assert_eq!(cases.len(), on_file.len());
    let name = name.to_string();
    let changed: BTreeMap<usize, u32> = changed.iter().copied().collect();
    with_deep_stack(move || {
        let cases = cases.iter().map(|line| format::parse(line));
        let cases: Vec<Case> = cases.collect::<Option<_>>().expect("cases");
        let by_rust = answered(&mut Reference::new(), &cases);
        let by_library = answered(&mut Library, &cases);
        let known = || on_file.iter().zip(&by_rust);
        for (before, (on_file, by_rust)) in known().enumerate() {
            let line = before + 1;
            let found = &by_library[before];
            if let Some(number) = changed.get(&line) {
                assert_ne!(by_rust, on_file, "{name}.txt, line {line}");
                assert_eq!(first_number(by_rust), *number, "{name}.txt, line {line}");
                assert_eq!(found, by_rust, "{name}.txt, line {line}");
                continue;
            }
            let expected = expected(on_file, by_rust);
            assert_eq!(by_rust, expected, "{name}.txt, line {line}");
            assert_eq!(found, expected, "{name}.txt, line {line}");
        }
        let known = known().map(|(on_file, by_rust)| (on_file.as_str(), by_rust.as_str()));
        (cases.len(), counted(known))
    })
    .expect("every case agrees")
}

/// The same where no answer has changed.
fn agree_unchanged(folder: &Path, name: &str) -> usize {
    let (count, changed) = agree(folder, name, &[]);
    assert_eq!(changed, Changes::new());
    say(&format!("{count} cases of {name} agree"));
    count
}

#[test]
fn the_sample_of_this_repository_agrees() {
    assert!(agree_unchanged(&own_folder(), "sample") >= 200);
}

#[test]
fn the_copied_shared_cases_agree() {
    assert!(agree_unchanged(&own_folder(), "shared") >= 150);
    assert!(agree_unchanged(&own_folder(), "stage1") >= 80);
    assert!(agree_unchanged(&own_folder(), "stage2") >= 80);
    assert!(agree_unchanged(&own_folder(), "stage3") >= 80);
    assert!(agree_unchanged(&own_folder(), "stage4") >= 80);
}

/// What is now answered where it was 2 or 6, and how often, in the shared cases of document 01.
const NARROWED: [(&str, &[((u32, u32), usize)]); 2] = [
    (
        "edges",
        &[
            ((2, 0), 2),
            ((2, 3), 23),
            ((2, 4), 1),
            ((2, 5), 3),
            ((2, 6), 31),
            ((2, 7), 2),
            ((2, 9), 4),
        ],
    ),
    (
        "run",
        &[
            ((2, 0), 1),
            ((2, 3), 1),
            ((2, 4), 6),
            ((2, 5), 2),
            ((2, 6), 44),
            ((2, 7), 3),
            ((2, 9), 1),
            ((2, 11), 1),
            ((2, 13), 1),
            ((6, 25), 1),
        ],
    ),
];

/// The lines of the shared case `run` in which a right side of `06` or `07` ran out of memory that is no longer evaluated
/// (document 02, R-2).
const DECIDED: [Changed; 2] = [(47, 20), (216, 20)];

/// The lines in which a node names itself by `13`, which was 6 and is 25, or 9 where plain types disagree too (document 02,
/// All but line 325 of `run` have an empty line as well, and were 2 before R-1.
const EDGES_READING_ITSELF: [Changed; 3] = [(448, 9), (677, 9), (904, 9)];
const RUN_READING_ITSELF: [Changed; 2] = [(51, 9), (325, 25)];

/// The lines of a shared case of document 01 that are named here.
fn changed(name: &str) -> Vec<Changed> {
    match name {
        "run" => [DECIDED, RUN_READING_ITSELF].concat(),
        _ => EDGES_READING_ITSELF.to_vec(),
    }
}

#[test]
#[ignore = "needs the shared cases, which run-tests looks for: cargo test -- --ignored"]
fn all_shared_cases_agree() {
    let folder = shared_folder();
    for (name, expected) in NARROWED {
        let (count, changes) = agree(&folder, name, &changed(name));
        assert_eq!(changes, expected.iter().copied().collect());
        say(&format!(
            "{count} shared cases of {name} agree; numbers on file and now: {changes:?}"
        ));
    }
    agree_unchanged(&folder, "stage1");
    agree_unchanged(&folder, "stage2");
    agree_unchanged(&folder, "stage3");
    agree_unchanged(&folder, "stage4");
}
