//! What `docs/FORMAT.md` shows: the bytes of listing 3 and of a record, the limits, and the state after a line.

mod support;

use evaluator::limits;
use generator::case::Case;
use paugmeln::Instance;
use replay::checking::report_by_library;
use replay::library::Library;
use replay::run::run;
use std::fs;
use std::mem::offset_of;
use support::{example, root, strict_example};

fn of_repository(name: &str) -> String {
    fs::read_to_string(root().join(name)).expect("a readable file")
}

/// The lines below a heading, as far as the next of its level.
fn section<'a>(page: &'a str, heading: &str) -> Vec<&'a str> {
    let below = page.lines().skip_while(|line| *line != heading).skip(1);
    below.take_while(|line| !line.starts_with("## ")).collect()
}

/// The cells of the rows of tables.
fn rows<'a>(lines: &[&'a str]) -> Vec<Vec<&'a str>> {
    let tables = lines.iter().filter_map(|line| line.strip_prefix("| "));
    tables
        .map(|row| {
            row.trim_end_matches('|')
                .split('|')
                .map(str::trim)
                .collect()
        })
        .collect()
}

/// A heading of the page for one frame.
fn is_frame_heading(line: &str) -> bool {
    ["### Line ", "### Frame "]
        .iter()
        .any(|start| line.starts_with(start))
}

#[test]
fn the_bytes_of_listing_3_are_those_of_the_file() {
    let page = of_repository("docs/FORMAT.md");
    let mut shown = String::new();
    for line in section(&page, "## Listing 3, byte by byte") {
        if is_frame_heading(line) && !line.ends_with(" 1") {
            shown.push('\n');
        }
        if let Some(row) = line.strip_prefix("| `") {
            let (bytes, _) = row.split_once('`').expect("bytes");
            shown.extend(bytes.split(' '));
        }
    }
    shown.push('\n');
    let strict = String::from_utf8(strict_example("listing3"));
    assert_eq!(Ok(shown), strict);
}

/// The most that the page states.
fn most(table: &[Vec<&str>], what: &str) -> usize {
    let row = table.iter().find(|row| row[0] == what).expect(what);
    let number: String = row[2].chars().filter(|digit| *digit != ',').collect();
    number.parse().expect("a number")
}

#[test]
fn the_limits_are_those_of_rust() {
    let page = of_repository("docs/FORMAT.md");
    let table = rows(&section(&page, "## Limits"));
    let expected = [
        ("characters of a rule file", limits::TEXT_CHARACTERS),
        ("types", limits::TYPES),
        ("functions", limits::FUNCTIONS),
        ("inputs", limits::INPUTS),
        ("nodes", limits::NODES),
        ("constructors of a type", limits::CONSTRUCTORS),
        ("fields of a constructor", limits::FIELDS),
        ("parameters of a function", limits::PARAMETERS),
        ("conditions of a function", limits::CONDITIONS),
        ("measure variables of a function", limits::MEASURES),
        ("k of a field, a declared type, a fit", limits::LARGEST_SIZE),
        ("variables in scope", limits::VARIABLES),
        ("size variables in scope", limits::SIZE_VARIABLES),
        (
            "nesting of an expression, of a written size",
            limits::NESTING,
        ),
        ("size of a type, once worked out", limits::LARGEST_SIZE),
        ("instances", limits::INSTANCES),
        ("reported numbers", limits::LARGEST_NUMBER as usize),
        ("cells of a board", limits::BOARD_CELLS as usize),
        ("slots of a board", limits::BOARD_SLOTS as usize),
        ("calls of a board", limits::BOARD_CALLS as usize),
    ];
    for (what, limit) in expected {
        assert_eq!(most(&table, what), limit, "{what}");
    }
}

#[test]
fn the_bytes_of_a_record_are_those_of_rust() {
    let page = of_repository("docs/FORMAT.md");
    let table = rows(&section(&page, "## The instance record"));
    let shown: Vec<String> = table.iter().skip(1).map(|row| row[..3].join(" ")).collect();
    let word = size_of::<u32>();
    let expected = [
        ("function", offset_of!(Instance, function), word),
        (
            "sizes",
            offset_of!(Instance, sizes),
            limits::PARAMETERS * word,
        ),
        ("environment", offset_of!(Instance, environment), word),
        ("heap", offset_of!(Instance, heap), word),
        ("stack", offset_of!(Instance, stack), word),
    ];
    let expected = expected.map(|(name, offset, width)| format!("`{name}` {offset} {width}"));
    assert_eq!(shown, expected);
    assert!(page.contains(&format!("A record has {} bytes", size_of::<Instance>())));
}

/// Listing 3 on the board that it needs, and the line that the page shows.
fn listing3_and_a_line() -> Case {
    Case::Run {
        board: evaluator::answer::Board {
            cells: 25,
            slots: 18,
            calls: 5,
        },
        text: example("listing3"),
        lines: vec![b"0510001100000007\n".to_vec()],
    }
}

#[test]
fn the_instances_are_those_of_the_proved_checker() {
    let page = of_repository("docs/FORMAT.md");
    let table = rows(&section(&page, "## Listing 3: what it needs"));
    let shown = table
        .iter()
        .skip_while(|row| row[0] != "function")
        .skip(1)
        .take(10);
    let shown: Vec<String> = shown.map(|row| row.join(":")).collect();
    let expected = format!("check:0,0,25,18,5;inst:{}", shown.join("|"));
    assert_eq!(report_by_library(&listing3_and_a_line()), expected);
}

/// The words that a column of the page's table of states shows, as a report spells them.
fn state_shown(table: &[Vec<&str>], column: usize) -> String {
    let mut words = vec![0; 175];
    let states = table.iter().skip_while(|row| row[0] != "words").skip(1);
    for row in states {
        let (first, _) = row[0].split_once(" to ").unwrap_or((row[0], ""));
        let first: usize = first.parse().expect("a place");
        for (at, word) in row[column].split(", ").enumerate() {
            words[first + at] = word.parse::<u32>().expect("a word");
        }
    }
    let words: Vec<String> = words.iter().map(|word| format!("{word:x}")).collect();
    words.join(".")
}

#[test]
fn the_states_are_those_of_the_proved_library() {
    let page = of_repository("docs/FORMAT.md");
    let table = rows(&section(&page, "## Listing 3: what it needs"));
    let report = run(&mut Library, &listing3_and_a_line());
    let expected = [
        format!("state:{}", state_shown(&table, 1)),
        format!("it:0,0:{}", state_shown(&table, 3)),
    ];
    for part in expected {
        assert!(report.split(';').any(|found| found == part), "{part}");
    }
}
