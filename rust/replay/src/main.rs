//! Answers cases, or writes fresh ones:
//!
//! ```text
//! replay < cases > answers              by the proved library
//! replay --rust < cases > answers       by the Rust evaluator
//! replay --both < cases                 says which cases the two answer differently
//! replay --read < cases > answers       number and frame by the proved reader
//! replay --check < cases > answers      the first two parts by the proved checker
//! replay --generate <count> <seed> > cases
//! replay --generate-typed <count> <seed> > cases     with texts as an editor leaves them, and strict texts to be written
//! ```
//!
//! Exit status: 0, 1 where `--both` found a difference, 2 where there is no answer (the input holds no case, say).

use evaluator::stack::with_deep_stack;
use generator::case::Case;
use generator::mixture::Mixture;
use generator::typed::TypedMixture;
use replay::engine::Engine;
use replay::library::Library;
use replay::reference::Reference;
use replay::run::{difference, run};
use replay::{checking, format, reading};

use std::io::{self, BufRead, BufWriter, Write};
use std::process::ExitCode;

const USAGE: &str =
    "usage: replay [--rust | --both | --read | --check] < cases, or replay --generate[-typed] <count> <seed>";

const DIFFERENT: u8 = 1;
const NO_ANSWER: u8 = 2;

/// What the arguments ask for.
enum Task {
    AnswerByLibrary,
    AnswerByReference,
    Compare,
    ReadByLibrary,
    CheckByLibrary,
    Generate { count: usize, seed: u64 },
    GenerateTyped { count: usize, seed: u64 },
}

fn main() -> ExitCode {
    let arguments: Vec<String> = std::env::args().skip(1).collect();
    let done = match task(&arguments) {
        None => Err(io::Error::other(USAGE)),
        Some(task) => with_deep_stack(move || perform(task)).and_then(|done| done),
    };
    match done {
        Ok(status) => status,
        Err(error) => {
            eprintln!("replay: {error}");
            ExitCode::from(NO_ANSWER)
        }
    }
}

fn task(arguments: &[String]) -> Option<Task> {
    let arguments: Vec<&str> = arguments.iter().map(String::as_str).collect();
    match arguments[..] {
        [] => Some(Task::AnswerByLibrary),
        ["--rust"] => Some(Task::AnswerByReference),
        ["--both"] => Some(Task::Compare),
        ["--read"] => Some(Task::ReadByLibrary),
        ["--check"] => Some(Task::CheckByLibrary),
        ["--generate", count, seed] => Some(Task::Generate {
            count: count.parse().ok()?,
            seed: seed.parse().ok()?,
        }),
        ["--generate-typed", count, seed] => Some(Task::GenerateTyped {
            count: count.parse().ok()?,
            seed: seed.parse().ok()?,
        }),
        _ => None,
    }
}

fn perform(task: Task) -> io::Result<ExitCode> {
    match task {
        Task::AnswerByLibrary => answer_by(&mut Library),
        Task::AnswerByReference => answer_by(&mut Reference::new()),
        Task::Compare => compare(),
        Task::ReadByLibrary => answer(|case| reading::report(reading::by_library(case.text()))),
        Task::CheckByLibrary => answer(checking::report_by_library),
        Task::Generate { count, seed } => {
            let mut mixture = Mixture::new(seed);
            generate(count, || mixture.next_case())
        }
        Task::GenerateTyped { count, seed } => {
            let mut mixture = TypedMixture::new(seed);
            generate(count, || mixture.next_case())
        }
    }
}

/// Hands on each case of standard input with its line.
fn for_each_case(mut look: impl FnMut(usize, &Case) -> io::Result<()>) -> io::Result<()> {
    for (before, line) in io::stdin().lock().lines().enumerate() {
        let number = before + 1;
        let case = format::parse(&line?).ok_or_else(|| not_a_case(number))?;
        look(number, &case)?;
    }
    Ok(())
}

fn not_a_case(line: usize) -> io::Error {
    io::Error::other(format!("line {line} is no case"))
}

fn answer_by(engine: &mut dyn Engine) -> io::Result<ExitCode> {
    answer(|case| run(engine, case))
}

fn answer(mut by: impl FnMut(&Case) -> String) -> io::Result<ExitCode> {
    let mut out = BufWriter::new(io::stdout().lock());
    for_each_case(|_, case| writeln!(out, "{}", by(case)))?;
    out.flush()?;
    Ok(ExitCode::SUCCESS)
}

/// Writes both answers where they differ, then how many cases there were and how many differ.
fn compare() -> io::Result<ExitCode> {
    let mut out = BufWriter::new(io::stdout().lock());
    let mut rust = Reference::new();
    let (mut cases, mut different) = (0, 0);
    for_each_case(|line, case| {
        cases += 1;
        let Some(answers) = difference(&mut Library, &mut rust, case) else {
            return Ok(());
        };
        different += 1;
        writeln!(out, "line {line} differs\n{answers}")
    })?;
    writeln!(out, "{cases} cases, {different} differ")?;
    out.flush()?;
    Ok(match different {
        0 => ExitCode::SUCCESS,
        _ => ExitCode::from(DIFFERENT),
    })
}

fn generate(count: usize, mut next_case: impl FnMut() -> Case) -> io::Result<ExitCode> {
    let mut out = BufWriter::new(io::stdout().lock());
    for _ in 0..count {
        writeln!(out, "{}", format::write(&next_case()))?;
    }
    out.flush()?;
    Ok(ExitCode::SUCCESS)
}
