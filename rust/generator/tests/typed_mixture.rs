//! The mixture of cases in which typed texts are common: every kind of line, of
//! case and of buffer occurs, and every number of the writer.

use evaluator::machine::{strict_text, write};
use evaluator::stack::with_deep_stack;
use generator::case::Case;
use generator::typed::TypedMixture;
use std::cmp::Ordering;
use std::collections::{BTreeMap, BTreeSet};

/// How the length of a buffer stands to that of the strict text, and whether it
/// is 0.
type Room = (Ordering, bool);

/// The numbers that the texts of cases are written with, and the buffers.
fn counted(cases: usize, seed: u64) -> (BTreeMap<u32, usize>, BTreeSet<Room>) {
    let mut mixture = TypedMixture::new(seed);
    let (mut numbers, mut rooms) = (BTreeMap::new(), BTreeSet::new());
    for _ in 0..cases {
        if let Case::Write { room, text } = mixture.next_case() {
            let answer = write(&text, &mut vec![0; room]);
            *numbers.entry(answer.number).or_default() += 1;
            let strict = strict_text(&text);
            rooms.extend(strict.map(|strict| (room.cmp(&strict.len()), room == 0)));
        }
    }
    (numbers, rooms)
}

#[test]
fn the_mixture_meets_every_number_of_the_writer() {
    let (numbers, rooms) = with_deep_stack(|| counted(4_000, 51)).expect("every text is written");
    println!("{numbers:?}");
    let expected: Vec<u32> = (0..=8).chain([24]).collect();
    assert_eq!(numbers.keys().copied().collect::<Vec<u32>>(), expected);
    assert!([0, 1, 2, 3, 24].iter().all(|number| numbers[number] >= 10));
    let shorter = [false, true].map(|empty| (Ordering::Less, empty));
    let others = [Ordering::Equal, Ordering::Greater].map(|other| (other, false));
    assert!(rooms.into_iter().eq(shorter.into_iter().chain(others)));
}

/// Whether some line of a text, without its LF, is as asked.
fn some_line(text: &[u8], is: fn(&[u8]) -> bool) -> bool {
    text.split(|character| *character == b'\n').any(is)
}

/// What a line may be, and how it is known, without its LF.
type Kind = (&'static str, fn(&[u8]) -> bool);

/// What texts may have, line by line.
const KINDS: [Kind; 14] = [
    ("lower case", |line| {
        matches!(line, [b'0', b'1'..=b'4', ..]) && line.iter().any(|c| (b'a'..=b'f').contains(c))
    }),
    ("a space between pairs", |line| {
        matches!(line, [_, _, b' ', b'0'..=b'9', ..])
    }),
    ("CR LF", |line| {
        matches!(line, [b'0', .., b'0'..=b'9', b'\r'])
    }),
    ("an empty line", |line| line == b"\r"),
    ("a comment of other bytes", |line| {
        matches!(line, [b';', ..]) && line.contains(&0) && !line.is_ascii()
    }),
    ("a space inside a pair", |line| {
        matches!(line, [b'0', b' ', b'1'..=b'4', ..])
    }),
    ("a space before the first", |line| line.starts_with(b" 0")),
    ("a space behind the last", |line| {
        matches!(line, [b'0', .., b' '])
    }),
    ("a tab", |line| {
        line.starts_with(b"0") && line.contains(&b'\t')
    }),
    ("CR alone", |line| matches!(line, [b'0', _, b'\r', _, ..])),
    ("CR twice", |line| matches!(line, [b'0', .., b'\r', b'\r'])),
    ("a semicolon elsewhere", |line| {
        line.starts_with(b"0") && line.contains(&b';')
    }),
    ("not hexadecimal", |line| {
        line.starts_with(b"0") && line.iter().any(|c| matches!(c, b'G' | b'g' | b'x'))
    }),
    ("spaces only", |line| {
        !line.is_empty() && line.iter().all(|c| *c == b' ')
    }),
];

/// What their last lines may be.
const LAST_LINES: [Kind; 4] = [
    ("a text that ends in LF", <[u8]>::is_empty),
    ("a last frame without LF", |line| line.starts_with(b"0")),
    ("a comment without LF", |line| line.starts_with(b";")),
    ("a CR without LF", |line| line == b"\r"),
];

#[test]
fn the_mixture_has_every_kind_of_line() {
    let mut mixture = TypedMixture::new(61);
    let texts = (0..4_000).map(|_| mixture.next_case().text().to_vec());
    let texts: Vec<Vec<u8>> = texts.collect();
    for (what, is) in KINDS {
        let count = texts.iter().filter(|text| some_line(text, is)).count();
        assert!(count > 0, "{what}");
    }
    let last = |text: &[u8]| text.rsplit(|c| *c == b'\n').next().map(<[u8]>::to_vec);
    let last: Vec<Vec<u8>> = texts.iter().filter_map(|text| last(text)).collect();
    for (what, is) in LAST_LINES {
        assert!(last.iter().any(|line| is(line)), "{what}");
    }
}

#[test]
fn the_mixture_has_every_kind_of_case() {
    let mut mixture = TypedMixture::new(53);
    let (mut runs, mut iterations, mut strict) = (0, 0, 0);
    for _ in 0..1_000 {
        let case = mixture.next_case();
        strict += usize::from(strict_text(case.text()).is_ok_and(|text| text == case.text()));
        match case {
            Case::Run { .. } => runs += 1,
            Case::Iteration { .. } => iterations += 1,
            Case::Write { .. } => {}
        }
    }
    assert!(runs > 200 && iterations > 100 && (1..200).contains(&strict));
}
