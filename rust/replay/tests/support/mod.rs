//! Where the cases and the example files are, and what tests say of answers.

// Each test takes what it needs.
#![allow(dead_code)]

pub mod lists;
pub mod narrowed;

use evaluator::machine::strict_text;
use std::collections::BTreeMap;
use std::fs;
use std::io::{self, Write};
use std::path::{Path, PathBuf};

/// Names the folder of the shared cases where it is not beside the repository.
const FOLDER_VARIABLE: &str = "PAUGMELN_CASES";

/// The folder of the whole repository.
pub fn root() -> PathBuf {
    Path::new(env!("CARGO_MANIFEST_DIR")).join("../..")
}

/// A rule file of `examples/`.
pub fn example(name: &str) -> Vec<u8> {
    let path = root().join("examples").join(format!("{name}.rules"));
    fs::read(path).expect("the rule file is there")
}

/// The strict text of a rule file of `examples/`, by the Rust evaluator.
pub fn strict_example(name: &str) -> Vec<u8> {
    strict_text(&example(name)).expect("a file that is read")
}

/// The cases of this repository.
pub fn own_folder() -> PathBuf {
    root().join("rust/cases")
}

/// The shared cases, of which this repository has a part. Tests that ask for them are ignored unless they are asked for.
///
/// # Panics
///
/// Where they are absent: nothing is passed that was not compared.
pub fn shared_folder() -> PathBuf {
    let folder = match std::env::var_os(FOLDER_VARIABLE) {
        Some(folder) => PathBuf::from(folder),
        None => root().join("../shared/cases"),
    };
    let shown = folder.display();
    assert!(
        folder.is_dir(),
        "no shared cases: {shown} is no folder (set {FOLDER_VARIABLE} to name it)"
    );
    folder
}

/// The lines of a file.
pub fn stored(folder: &Path, name: &str) -> Vec<String> {
    let content = fs::read_to_string(folder.join(name)).expect("a readable file");
    content.lines().map(str::to_string).collect()
}

/// How often each number was answered.
pub type Counts = BTreeMap<u32, usize>;

/// The numbers that a report gives to check, start, iterations and writing.
pub fn numbers(report: &str) -> impl Iterator<Item = u32> + '_ {
    let parts = report.split(';').filter_map(|part| part.split_once(':'));
    let answers = parts.filter(|(name, _)| matches!(*name, "check" | "start" | "it" | "wr"));
    answers.filter_map(|(_, rest)| rest.split(',').next()?.parse().ok())
}

/// Writes past the capture of passing tests, so that it is always seen.
pub fn say(message: &str) {
    writeln!(io::stderr(), "{message}").expect("standard error is open");
}
