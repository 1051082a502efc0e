//! What lent buffers hold at the end, and buffers that are too short.

mod support;

use evaluator::answer::{Answer, Board, Bounds};
use evaluator::instances::Instance;
use evaluator::limits::{state_words, BOARD_CELLS, BOARD_SLOTS, INSTANCES, SCRATCH_WORDS};
use evaluator::machine;
use evaluator::stack::with_deep_stack;
use generator::case::Case;
use generator::examples::listing3;
use generator::mixture::Mixture;
use generator::random::Random;
use generator::typed::TypedMixture;
use generator::writer;
use support::{Lent, UNTOUCHED};

/// A list with something in every record.
fn soiled_instances(length: usize) -> Vec<Instance> {
    let mut lent = Lent::new(Board::LARGEST, 0);
    lent.check(&writer::text(&listing3()));
    let record = lent.instances[0];
    assert_ne!(record, Instance::default());
    vec![record; length]
}

fn capped(board: Board) -> Board {
    Board {
        cells: board.cells.min(BOARD_CELLS),
        slots: board.slots.min(BOARD_SLOTS),
        ..board
    }
}

/// Buffers as long as the board asks, longer, or now and then too short.
fn lend(random: &mut Random, board: Board) -> Lent {
    let mut lent = Lent::new(capped(board), random.below(4));
    lent.board = board;
    lent.instances = soiled_instances(lent.instances.len());
    match random.below(12) {
        0 => drop(lent.instances.drain(INSTANCES - 1..)),
        1 => drop(lent.scratch.drain(SCRATCH_WORDS - 1..)),
        2 => lent.state.truncate(state_words(capped(board).cells) - 1),
        3 => lent
            .slots
            .truncate((capped(board).slots as usize).saturating_sub(1)),
        _ => (),
    }
    lent
}

fn bounds_are_zero_unless_told(answer: Answer) -> bool {
    let told = matches!(answer.number, 0 | 15 | 16 | 17);
    told || answer.bounds == Bounds::default()
}

fn assert_checked(lent: &mut Lent, text: &[u8]) {
    let answer = lent.check(text);
    assert!(bounds_are_zero_unless_told(answer));
    if answer.number != 0 {
        assert!(lent.instances_are_zero());
    }
    let rest = &lent.instances[lent.instances_entered()..];
    assert!(rest.iter().all(|record| *record == Instance::default()));
}

fn assert_started(lent: &mut Lent, text: &[u8]) {
    let before = lent.state.clone();
    lent.soil();
    let answer = lent.start(text);
    assert!(bounds_are_zero_unless_told(answer));
    assert!(lent.scratch_and_slots_are_zero());
    if answer.number != 0 {
        assert!(lent.instances_are_zero());
        assert_eq!(lent.state, before);
    }
}

fn assert_iterated(lent: &mut Lent, text: &[u8], line: &[u8]) {
    let before = lent.state.clone();
    lent.soil();
    let answer = lent.iterate(text, line);
    assert_eq!(answer.bounds, Bounds::default());
    assert!(lent.scratch_and_slots_are_zero());
    if answer.number != 0 {
        assert_eq!(lent.state, before);
    }
}

/// The text and zeros behind it, on a refusal zeros alone.
fn assert_written(room: usize, text: &[u8]) {
    let mut buffer = vec![0xA5; room];
    let answer = machine::write(text, &mut buffer);
    assert_eq!(answer.bounds, Bounds::default());
    let mut expected = match answer.number {
        0 => machine::strict_text(text).expect("it was written"),
        _ => vec![],
    };
    expected.resize(room, 0);
    assert_eq!(buffer, expected);
}

fn look_at(random: &mut Random, case: Case) {
    match case {
        Case::Run { board, text, lines } => {
            let mut lent = lend(random, board);
            assert_checked(&mut lent, &text);
            lent.instances = soiled_instances(lent.instances.len());
            assert_started(&mut lent, &text);
            for line in lines {
                assert_iterated(&mut lent, &text, &line);
            }
        }
        Case::Iteration {
            board,
            text,
            state,
            line,
        } => {
            let mut lent = lend(random, board);
            lent.state = state;
            assert_iterated(&mut lent, &text, &line);
        }
        Case::Write { room, text } => assert_written(room, &text),
    }
}

#[test]
fn refusals_leave_the_state_and_zero_everything_else() {
    with_deep_stack(|| {
        let mut random = Random::new(25);
        let mut mixture = Mixture::new(26);
        let mut typed = TypedMixture::new(27);
        for _ in 0..10_000 {
            look_at(&mut random, mixture.next_case());
            look_at(&mut random, typed.next_case());
        }
    })
    .expect("every case holds");
}

#[test]
fn each_buffer_that_is_too_short_is_18_after_9() {
    let text = writer::text(&listing3());
    let line = b"05100011 00000001\n"
        .iter()
        .copied()
        .filter(|byte| *byte != b' ');
    let line: Vec<u8> = line.collect();
    let whole = || {
        let mut lent = Lent::new(Board::LARGEST, 0);
        lent.start(&text);
        lent
    };
    let shorten: [fn(&mut Lent); 3] = [
        |lent| lent.state.truncate(lent.state.len() - 1),
        |lent| lent.scratch.truncate(lent.scratch.len() - 1),
        |lent| lent.slots.truncate(lent.slots.len() - 1),
    ];
    assert_eq!(whole().iterate(&text, &line).number, 0);
    for shorten in shorten {
        let mut lent = whole();
        shorten(&mut lent);
        assert_eq!(lent.iterate(&text, &line).number, 18);
        assert_eq!(lent.start(&text).number, 18);
        assert_eq!(lent.check(&text).number, 0);
        assert_eq!(lent.start(b"").number, 3);
    }
    let mut lent = whole();
    lent.instances.pop();
    assert_eq!(lent.check(&text).number, 18);
    assert_eq!(lent.start(&text).number, 18);
    assert_eq!(lent.iterate(&text, &line).number, 0);
}

#[test]
fn a_start_does_not_look_at_the_old_state() {
    let text = writer::text(&listing3());
    let mut clean = Lent::new(Board::LARGEST, 0);
    clean.state.fill(0);
    let mut soiled = Lent::new(Board::LARGEST, 0);
    soiled.state.fill(UNTOUCHED);
    assert_eq!(clean.start(&text), soiled.start(&text));
    assert_eq!(clean.state, soiled.state);
}
