//! Texts typed in an ordinary editor: the reader takes them as the strict text
//! of the same frames, the writer gives that text, and slips are 2.

mod support;

use evaluator::answer::{Answer, Board, Refusal};
use evaluator::limits::TEXT_CHARACTERS;
use evaluator::machine::{strict_text, write};
use evaluator::reader::read;
use evaluator::stack::with_deep_stack;
use generator::files::random_file;
use generator::random::Random;
use generator::typed::mixture::lengthened;
use generator::typed::{habits, slip, typed, Habit, Slip};
use generator::writer;
use support::Lent;

const NODE: &str = "040111000000001100000001\n";
const UNTOUCHED: u8 = 0xA5;

/// The number and frame that a text is answered with.
fn answered(text: &[u8]) -> (u32, usize) {
    match read(text) {
        Ok(_) => (0, 0),
        Err(fault) => (fault.refusal.number(), fault.frame),
    }
}

/// Each row: what is tried, the text, number and frame.
fn try_rows(rows: &[(&str, String, u32, usize)]) {
    for (what, text, number, frame) in rows {
        assert_eq!(
            answered(text.as_bytes()),
            (*number, *frame),
            "{what}: {text:?}"
        );
    }
}

#[test]
fn lines_that_pass() {
    try_rows(&[
        ("lower case", NODE.replace("01\n", "aF\n"), 0, 0),
        ("spaces", "04 01  11 00000000   1100000001\n".into(), 0, 0),
        ("lower-case digits", "040010001a\n".into(), 4, 1),
        ("CR LF", NODE.replace('\n', "\r\n"), 0, 0),
        ("empty lines", format!("\n\r\n{NODE}\r\n\n"), 0, 0),
        ("a comment", format!(";\t é;\r\r\n;\n{NODE};\r\n"), 0, 0),
        (
            "frames without extra lines",
            format!(";\n\n{NODE}\n09\n"),
            3,
            2,
        ),
        ("extra lines only", ";\n\n\r\n".into(), 3, 1),
        (
            "no node, behind extra lines",
            ";\n010100\n\n;\n".into(),
            3,
            2,
        ),
    ]);
}

#[test]
fn lines_that_do_not() {
    let first = |line: &str| format!(";\n{NODE}\n{line}\n{NODE}");
    let rows = [
        " 04", "04 ", "0 4", "04 0", "0", " ", "\t", "04\t00", "\r04", "04\r00", "04\r\r", "\r\r",
        " ;", "04;", "04 ;", "0g", "0x04", "04\0",
    ];
    try_rows(&rows.map(|line| (line, first(line), 2, 2)));
    let last = |line: &str| format!("{NODE};\n{line}");
    let rows = ["04", "0", ";", "; ends", "\r", ";\r", " ", "G"];
    try_rows(&rows.map(|line| ("without LF", last(line), 2, 2)));
    try_rows(&[
        ("the first bad line", format!("{NODE}\n0\n;\n0g\n"), 2, 2),
        ("2 before 3", "09\n;\n0\n".into(), 2, 2),
    ]);
}

#[test]
fn all_characters_count() {
    let text = lengthened(NODE.as_bytes(), TEXT_CHARACTERS);
    assert_eq!(text.len(), TEXT_CHARACTERS);
    assert_eq!(answered(&text), (0, 0));
    assert_eq!(answered(&[&text[..], b"\n"].concat()), (1, 0));
    assert_eq!(answered(&lengthened(b"", TEXT_CHARACTERS + 1)), (1, 0));
}

#[test]
fn the_input_line_stays_strict() {
    let mut lent = Lent::new(Board::LARGEST, 0);
    let text = b"; one input\n03 00 10 00\n04 00 10 00 13 00\n";
    assert_eq!(lent.start(text).number, 0);
    for line in [
        "05 1001\n",
        "051001\r\n",
        ";\n051001\n",
        "\n051001\n",
        "051001\n\n",
    ] {
        assert_eq!(lent.iterate(text, line.as_bytes()).number, 19, "{line:?}");
    }
    let line = b"050a\n";
    assert_eq!(lent.iterate(text, line).number, 19);
    assert_eq!(lent.iterate(text, b"051001\n").number, 0);
}

/// What the writer leaves in a buffer of so many bytes.
fn written(text: &[u8], room: usize) -> (Answer, Vec<u8>) {
    let mut buffer = vec![UNTOUCHED; room];
    let answer = write(text, &mut buffer);
    (answer, buffer)
}

#[test]
fn the_buffer_holds_the_strict_text_and_zeros() {
    let text = format!("; {NODE}\r\n{}", NODE.to_lowercase());
    let strict = NODE.as_bytes();
    for room in [strict.len(), strict.len() + 1, 3 * strict.len()] {
        let (answer, buffer) = written(text.as_bytes(), room);
        assert_eq!(answer, Answer::default());
        let (held, rest) = buffer.split_at(strict.len());
        assert_eq!(held, strict);
        assert!(rest.iter().all(|byte| *byte == 0));
    }
    let short = Answer::from(Refusal::WriteBuffer.in_frame(0));
    for room in [0, 1, strict.len() - 1] {
        assert_eq!(written(text.as_bytes(), room), (short, vec![0; room]));
    }
}

#[test]
fn other_refusals_come_before_24() {
    let refused = Answer::from(Refusal::Kind.in_frame(1));
    for room in [0, 5] {
        assert_eq!(written(b";\n", room), (refused, vec![0; room]));
    }
    // 9 is not the writer's: an Int node with a Bool as its initial value.
    let text = b"0401 1000 1100000001\n";
    assert_eq!(Lent::new(Board::LARGEST, 0).check(text).number, 9);
    assert_eq!(
        written(text, 19),
        (Answer::default(), b"040110001100000001\n".to_vec())
    );
}

#[test]
fn typed_texts_are_their_strict_texts() {
    with_deep_stack(|| {
        let mut random = Random::new(41);
        for _ in 0..2_000 {
            let file = random_file(&mut random, false);
            let strict = writer::text(&file);
            let some = habits(&mut random);
            let text = typed(&mut random, &strict, &some);
            if text.len() <= TEXT_CHARACTERS {
                assert_eq!(read(&text).as_ref(), Ok(&file));
                assert_eq!(strict_text(&text), Ok(strict.clone()));
                assert!(strict.len() <= text.len());
            }
            assert_eq!(strict_text(&strict), Ok(strict));
        }
    })
    .expect("every text is taken");
}

#[test]
fn each_habit_changes_texts() {
    let mut random = Random::new(43);
    let strict = NODE.replace('1', "A").repeat(20).into_bytes();
    for habit in Habit::ALL {
        let text = typed(&mut random, &strict, &[habit]);
        assert_ne!(text, strict, "{habit:?}");
        let [node, more] = [&strict, &text].map(|text| evaluator::text::frames(text));
        assert_eq!(node, more, "{habit:?}");
    }
    assert_eq!(typed(&mut random, &strict, &[]), strict);
}

#[test]
fn each_slip_is_2_in_its_frame() {
    let mut random = Random::new(47);
    for made in Slip::ALL {
        for _ in 0..300 {
            let strict = writer::text(&random_file(&mut random, false));
            let some = habits(&mut random);
            let mut text = typed(&mut random, &strict, &some);
            let frame = slip(&mut random, &mut text, made);
            if text.len() <= TEXT_CHARACTERS {
                let shown = String::from_utf8_lossy(&text);
                assert_eq!(answered(&text), (2, frame), "{made:?}: {shown}");
            }
        }
    }
}
