//! The C example, compiled with the header and the archive, answers as the Rust checker does; and the header's numbers are those of Rust.

mod support;

use evaluator::answer::{Answer, Board, Refusal};
use evaluator::limits::{
    BOARD_CALLS, BOARD_CELLS, BOARD_SLOTS, CHANNELS, FIELDS, INSTANCES, PARAMETERS, SCRATCH_WORDS,
    TEXT_CHARACTERS,
};
use evaluator::stack::with_deep_stack;
use generator::depths::{deepest_bodies, Level};
use generator::{edges, writer};
use paugmeln::{Bounds, Instance, ITERATION_STACK_NEEDED, LIST_RECORDS, STACK_NEEDED};
use replay::checking::{by_reference, Checked};
use std::fs;
use std::io::Write;
use std::path::{Path, PathBuf};
use std::process::{Command, Output, Stdio};
use support::{example, root};

const STRICT: [&str; 5] = ["-std=c11", "-Wall", "-Wextra", "-Wpedantic", "-Werror"];

/// The example, compiled as its own comment says, with all warnings on.
fn compiled() -> PathBuf {
    let program = Path::new(env!("CARGO_TARGET_TMPDIR")).join("check-rules");
    let compiled = Command::new("cc")
        .args(STRICT)
        .args(["-I", "include", "examples/c/check.c"])
        .args(["target/staticlib/libpaugmeln.a", "-lpthread", "-o"])
        .arg(&program)
        .current_dir(root())
        .status();
    assert!(compiled.expect("cc is installed").success());
    program
}

fn run(program: &Path, text: &[u8]) -> Output {
    let started = Command::new(program)
        .stdin(Stdio::piped())
        .stdout(Stdio::piped())
        .stderr(Stdio::piped())
        .spawn();
    let mut running = started.expect("the example starts");
    let mut input = running.stdin.take().expect("a pipe");
    input.write_all(text).expect("all of it is read");
    drop(input);
    running.wait_with_output().expect("the example ends")
}

/// The line that document 01 asks for.
fn line(answer: Answer) -> String {
    let bounds = answer.bounds;
    let (heap, environment, stack) = (bounds.heap, bounds.environment, bounds.stack);
    match answer.number {
        0 => format!("ACCEPT {heap} {environment} {stack}\n"),
        number => format!(
            "REFUSE {number} {} {heap} {environment} {stack}\n",
            answer.frame
        ),
    }
}

/// The line that the example writes for an instance.
fn instance_line(known: &Instance) -> String {
    let sizes = known.sizes.iter().take_while(|size| **size != 0);
    let sizes: String = sizes.map(|size| format!(" {size}")).collect();
    let (environment, heap, stack) = (known.environment, known.heap, known.stack);
    let numbers = format!("environment {environment}, heap {heap}, stack {stack}");
    format!("function {} at{sizes}: {numbers}\n", known.function)
}

fn texts() -> Vec<Vec<u8>> {
    let examples = ["accumulate", "allowed", "dose", "listing3", "top10sum"].map(example);
    let deepest = Level::ALL.map(|level| writer::text(&deepest_bodies(level)));
    let empty = vec![vec![]];
    [examples.to_vec(), deepest.to_vec(), edges::all(), empty].concat()
}

#[test]
fn the_example_answers_as_the_rust_checker_does() {
    let program = compiled();
    for text in texts() {
        let output = run(&program, &text);
        let expected = with_deep_stack(move || by_reference(&text, Board::LARGEST, LIST_RECORDS));
        let Checked { answer, list } = expected.expect("an answer");
        assert_eq!(String::from_utf8_lossy(&output.stdout), line(answer));
        assert_eq!(output.status.code(), Some(i32::from(answer.number != 0)));
        let entered = paugmeln::instances(&list).iter();
        let listed: String = entered.map(instance_line).collect();
        assert_eq!(String::from_utf8_lossy(&output.stderr), listed);
    }
}

/// The number that a line `#define <name> <number>` of the header gives.
fn defined(header: &str, name: &str) -> Option<usize> {
    let start = format!("#define {name} ");
    let found = header.lines().find_map(|line| line.strip_prefix(&start));
    found?.parse().ok()
}

#[test]
fn the_numbers_of_the_header_and_of_the_script_are_those_of_rust() {
    let header = fs::read_to_string(root().join("include/paugmeln.h")).expect("the header");
    let expected = [
        ("PAUGMELN_TEXT_MOST", TEXT_CHARACTERS),
        ("PAUGMELN_CELLS_MOST", BOARD_CELLS as usize),
        ("PAUGMELN_SLOTS_MOST", BOARD_SLOTS as usize),
        ("PAUGMELN_CALLS_MOST", BOARD_CALLS as usize),
        ("PAUGMELN_RECORD_SIZES", PARAMETERS),
        ("PAUGMELN_LIST_RECORDS", INSTANCES),
        ("PAUGMELN_CHANNELS_MOST", CHANNELS),
        ("PAUGMELN_CELL_FIELDS", FIELDS),
        ("PAUGMELN_SCRATCH_WORDS", SCRATCH_WORDS),
        ("PAUGMELN_STACK_BYTES", STACK_NEEDED),
        ("PAUGMELN_ITERATE_STACK_BYTES", ITERATION_STACK_NEEDED),
    ];
    for (name, number) in expected {
        assert_eq!(defined(&header, name), Some(number), "{name}");
    }
    let script = fs::read_to_string(root().join("check")).expect("the script");
    let kibibytes = format!("readonly stack_needed={}\n", STACK_NEEDED / 1024);
    assert!(script.contains(&kibibytes));
    let characters = format!("readonly characters_read={}\n", TEXT_CHARACTERS + 1);
    assert!(script.contains(&characters));
}

/// The refusals that share a line of the tables with others.
const TOGETHER: [u32; 6] = [15, 16, 17, 20, 21, 22];

#[test]
fn the_example_and_the_tables_have_the_sentences_of_rust() {
    let read = |name| fs::read_to_string(root().join(name)).expect("a readable file");
    let (example, header, page) = (
        read("examples/c/run.c"),
        read("include/paugmeln.h"),
        read("README.md"),
    );
    for number in 1..=Refusal::ReadsItself.number() {
        let bounds = Bounds {
            heap: 0,
            environment: 0,
            stack: 0,
        };
        let sentence = paugmeln::Refusal {
            number,
            frame: 0,
            bounds,
        }
        .sentence();
        assert!(example.contains(&format!("    \"{sentence}\",\n")));
        if !TOGETHER.contains(&number) {
            assert!(header.contains(&format!("{number}  {sentence}\n")));
            assert!(page.contains(&format!("| {number} | {sentence} |")));
        }
    }
}
