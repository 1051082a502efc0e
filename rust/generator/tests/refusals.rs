//! Refusals of the reader, of plain types and of readings: small files, one fault each.

mod support;

use evaluator::answer::Board;
use support::Lent;

/// A list type, a node of type Int, and a function that is not called.
const LIST: &str = "010200020102\n";
const NODE: &str = "040111000000001100000001\n";

/// The number and frame that a text is answered with.
fn refusal(text: &str) -> (u32, u32) {
    let answer = Lent::new(Board::LARGEST, 0).check(text.as_bytes());
    (answer.number, answer.frame)
}

/// Each row: what is tried, the text, number and frame.
fn try_rows(rows: &[(&str, String, u32, u32)]) {
    for (what, text, number, frame) in rows {
        assert_eq!(refusal(text), (*number, *frame), "{what}: {text}");
    }
}

fn node(update: &str) -> String {
    format!("0401{zero}{update}\n", zero = "1100000000")
}

fn with_list(rest: &str) -> String {
    format!("{LIST}{rest}")
}

#[test]
fn lines() {
    try_rows(&[
        ("the empty text has no node", String::new(), 3, 1),
        ("an odd line", format!("{LIST}040\n"), 2, 2),
        ("no LF at the end", NODE.trim_end().to_string(), 2, 1),
        (
            "2 is judged over the whole text before 3",
            "09\nX\n".into(),
            2,
            2,
        ),
        ("the first bad line", "0G\n0\n".into(), 2, 1),
    ]);
}

#[test]
fn kinds() {
    let nodes = |count: usize| NODE.repeat(count);
    let input = "03011100000000\n";
    try_rows(&[
        ("kind 00", format!("00\n{NODE}"), 3, 1),
        ("kind 05", format!("05\n{NODE}"), 3, 1),
        ("a type after a node", format!("{NODE}{LIST}"), 3, 2),
        ("a ninth type", format!("{}{NODE}", LIST.repeat(9)), 3, 9),
        ("eight types", format!("{}{NODE}", LIST.repeat(8)), 0, 0),
        ("a ninth input", format!("{}{NODE}", input.repeat(9)), 3, 9),
        ("a 17th node", nodes(17), 3, 17),
        ("sixteen nodes", nodes(16), 0, 0),
        ("no node", LIST.into(), 3, 2),
        ("no node, judged after the frames", "0109\n".into(), 7, 1),
        (
            "no node, judged before plain types",
            "030110\n".into(),
            4,
            1,
        ),
        ("no node before 9", "03011000\n".into(), 3, 2),
        ("a kind alone", "04\n".into(), 4, 1),
    ]);
}

#[test]
fn bytes_of_types_in_order() {
    try_rows(&[
        ("bytes go on", node("110000000100"), 4, 1),
        ("bytes end early", node("11000000"), 4, 1),
        ("a count of 9 with nothing after it", "0109\n".into(), 7, 1),
        ("no constructor", "0100\n".into(), 7, 1),
        ("five fields", "010105\n".into(), 7, 1),
        ("a field code", "01010104\n".into(), 5, 1),
        ("a type inside itself", "010101030001\n".into(), 6, 1),
        ("t before k", "0101010300FF\n".into(), 6, 1),
        ("k of 0", with_list("010101030000\n"), 7, 2),
        ("k of 65", with_list("010101030041\n"), 7, 2),
        (
            "bytes that go on come before 8",
            "0101010200\n".into(),
            4,
            1,
        ),
        (
            "no constructor is free of the type",
            "01010102\n".into(),
            8,
            1,
        ),
    ]);
}

#[test]
fn bytes_of_functions_and_expressions() {
    try_rows(&[
        ("an expression code", node("1D"), 5, 1),
        ("a Bool of 2", node("1002"), 5, 1),
        ("an operator", node("1708"), 5, 1),
        ("nine parameters", "0209\n".into(), 7, 1),
        ("a parameter's type", "020103\n".into(), 5, 1),
        ("a relation", with_list("02010200010103\n"), 5, 2),
        ("a size code", with_list("0201020002000500\n"), 5, 2),
        ("a size variable", with_list("0201020002000201\n"), 6, 2),
        (
            "a measure's variable",
            with_list("02010200010001010000\n"),
            6,
            2,
        ),
        ("a declared size of 0", with_list("04020000\n"), 7, 2),
        ("a fit to 0", node("1C00"), 7, 1),
        ("a fit to 65", node("1C41"), 7, 1),
        ("a constructor", with_list(&node("190002")), 6, 2),
        (
            "a type before its constructor",
            with_list(&node("1901FF")),
            6,
            2,
        ),
    ]);
}

/// A function without parameters that gives an Int, before a node.
fn function(body: &str) -> String {
    format!("0200010000{body}\n{NODE}")
}

/// A node with this update, then one that reads none.
fn node_before(update: &str) -> String {
    format!("{}{NODE}", node(update))
}

#[test]
fn channels() {
    let counting = |code: &str| format!("04011100000000{code}010000\n0300\n");
    try_rows(&[
        ("a channel in a function", function("1300"), 6, 1),
        ("a channel's byte missing", "020001000013\n".into(), 4, 1),
        ("a previous value in a function", function("1400"), 6, 1),
        ("a channel as initial value", "04011300\n".into(), 6, 1),
        ("a node's own value", node("1300"), 25, 1),
        ("its previous value", node("1400"), 0, 0),
        ("a later node's value", node_before("1301"), 0, 0),
        ("a later node's previous value", node_before("1401"), 0, 0),
        ("no such channel", node_before("1302"), 6, 1),
        ("no such previous value", node_before("1402"), 6, 1),
        ("13 counts lines of a later place too", counting("13"), 4, 1),
        ("14 counts them too", counting("14"), 4, 1),
    ]);
}

#[test]
fn variables_and_functions() {
    try_rows(&[
        ("a variable as initial value", "04011200\n".into(), 6, 1),
        ("a later function", function("1801"), 6, 1),
        ("the function itself", function("1800"), 0, 0),
        ("no such function", node("1800"), 6, 1),
    ]);
}

#[test]
fn plain_types_of_channels() {
    let zero = "1100000000";
    let sum = format!("1700{zero}{zero}");
    let bound = format!("15{zero}1200");
    try_rows(&[
        ("a Bool node", format!("04001000{zero}\n"), 9, 1),
        ("an initial value", format!("04011000{zero}\n"), 9, 1),
        ("a sum as initial value", format!("0401{sum}{zero}\n"), 9, 1),
        (
            "a let inside an initial value",
            format!("0401{bound}{zero}\n"),
            9,
            1,
        ),
        (
            "an unreached function",
            format!("02000100001000\n{NODE}"),
            9,
            1,
        ),
    ]);
    let both = format!("02000100001000\n{}", node("1000"));
    try_rows(&[("the first frame in file order", both, 9, 1)]);
}

#[test]
fn plain_types_of_expressions() {
    let zero = "1100000000";
    let branch = format!("1A00190000{int}10001200", int = "01");
    let other = format!("1A00190100{int}{zero}{zero}", int = "01");
    try_rows(&[
        ("a sum of Bools", node("170010001000"), 9, 1),
        ("adj of an Int", node(&format!("1B0101{zero}")), 9, 1),
        (
            "fit of an Int",
            node(&format!("1C01{zero}{zero}{zero}")),
            9,
            1,
        ),
        ("a branch", with_list(&node(&branch)), 9, 2),
        ("arms", node(&format!("1610011001{zero}")), 9, 1),
        ("a condition", node(&format!("16{zero}{zero}{zero}")), 9, 1),
    ]);
    let equal = format!("{LIST}{LIST}{}", node(&other));
    try_rows(&[("equal shapes are different types", equal, 9, 3)]);
}
