//! Check, start, iterate and write: what a caller lends, what is answered, and
//! what every lent buffer holds at the end.

use crate::answer::{Answer, Board, Bounds, Fault, Refusal};
use crate::checker;
use crate::evaluate::{Evaluation, Room};
use crate::instances::{Instance, InstanceList};
use crate::limits::{state_words, INSTANCES, SCRATCH_WORDS};
use crate::line;
use crate::plain::initial_tree;
use crate::plain_types;
use crate::reader;
use crate::readings;
use crate::slide::slide;
use crate::state::State;
use crate::syntax::File;
use crate::text;
use crate::validity::is_valid;
use crate::value::Tree;
use std::rc::Rc;

/// Checks a file against a board. On acceptance the list holds the instances
/// in order of entry and its rest is zero; on refusal all of it is zero.
pub fn check(text: &[u8], board: Board, instances: &mut [Instance]) -> Answer {
    let checked = read(text).and_then(|file| {
        require(board.within_maximum() && instances.len() >= INSTANCES)?;
        checker::check(&file, InstanceList::new(instances))
    });
    let answer = match checked {
        Ok(bounds) => against_board(bounds, board),
        Err(fault) => fault.into(),
    };
    clear_if_refused(answer, instances);
    answer
}

/// The buffers of start and iteration, each at least as long as the board asks.
pub struct Loan<'a> {
    pub state: &'a mut [u32],
    pub scratch: &'a mut [u32],
    pub slots: &'a mut [u32],
}

/// Checks a file and fills the state with its initial values. A refused start
/// leaves the old state; scratch and slots end zero either way.
pub fn start(text: &[u8], board: Board, instances: &mut [Instance], loan: Loan) -> Answer {
    let started = read(text).and_then(|file| {
        require(board.within_maximum())?;
        require(instances.len() >= INSTANCES && loan.is_long_enough(board))?;
        let bounds = checker::check(&file, InstanceList::new(instances))?;
        Ok((file, bounds))
    });
    let answer = match started {
        Ok((file, bounds)) => {
            let answer = against_board(bounds, board);
            if answer.number == 0 {
                fill(&file, &mut loan.state[..state_words(board.cells)]);
            }
            answer
        }
        Err(fault) => fault.into(),
    };
    clear_if_refused(answer, instances);
    loan.give_back();
    answer
}

/// Takes one input line. A refusal leaves the state unchanged; scratch and
/// slots end zero either way.
pub fn iterate(text: &[u8], board: Board, line: &[u8], loan: Loan) -> Answer {
    let iterated = read(text).and_then(|file| {
        require(board.within_maximum() && loan.is_long_enough(board))?;
        let words = &mut loan.state[..state_words(board.cells)];
        iterate_file(&file, board, line, words, loan.scratch)
    });
    loan.give_back();
    match iterated {
        Ok(()) => Answer::accepted(Bounds::default()),
        Err(fault) => fault.into(),
    }
}

/// Writes the strict text of a file that the reader accepts (1 to 8), then 24
/// where the buffer is shorter. Past the text the buffer is zero, on a refusal
/// all of it.
pub fn write(text: &[u8], buffer: &mut [u8]) -> Answer {
    buffer.fill(0);
    let written = strict_text(text).and_then(|strict| {
        let room = buffer.get_mut(..strict.len());
        let room = room.ok_or(Refusal::WriteBuffer.in_frame(0))?;
        room.copy_from_slice(&strict);
        Ok(())
    });
    match written {
        Ok(()) => Answer::accepted(Bounds::default()),
        Err(fault) => fault.into(),
    }
}

/// The strict text of a file that the reader accepts; it is never longer than
/// the text.
pub fn strict_text(text: &[u8]) -> Result<Vec<u8>, Fault> {
    reader::read(text)?;
    Ok(text::strict_text(&text::frames(text)?))
}

impl Loan<'_> {
    fn is_long_enough(&self, board: Board) -> bool {
        self.state.len() >= state_words(board.cells)
            && self.scratch.len() >= SCRATCH_WORDS
            && self.slots.len() >= board.slots as usize
    }

    fn give_back(self) {
        self.scratch.fill(0);
        self.slots.fill(0);
    }
}

/// Refusals 1 to 9, then 25.
fn read(text: &[u8]) -> Result<File, Fault> {
    let file = reader::read(text)?;
    plain_types::check(&file)?;
    readings::check(&file)?;
    Ok(file)
}

/// Refusal 18.
fn require(lent: bool) -> Result<(), Fault> {
    match lent {
        true => Ok(()),
        false => Err(Refusal::Loan.in_frame(0)),
    }
}

/// Refusals 15 to 17, which carry all three bounds.
fn against_board(bounds: Bounds, board: Board) -> Answer {
    let refusal = if bounds.heap > board.cells {
        Refusal::BoardHeap
    } else if bounds.environment > board.slots {
        Refusal::BoardEnvironment
    } else if bounds.stack > board.calls {
        Refusal::BoardStack
    } else {
        return Answer::accepted(bounds);
    };
    Answer::refused(refusal.in_frame(0), bounds)
}

fn clear_if_refused(answer: Answer, instances: &mut [Instance]) {
    if answer.number != 0 {
        instances.fill(Instance::default());
    }
}

/// Makes the cells of the initial values in channel order.
fn fill(file: &File, words: &mut [u32]) {
    let mut state = State::new(words);
    state.clear();
    for channel in 0..file.channel_count() {
        let value = initial_tree(file, file.initial(channel));
        let cell = state.make_tree(&value);
        // The heap needed covers the cells of all channels.
        state.set_channel(
            channel,
            cell.expect("an accepted file's initial values fit"),
        );
    }
}

fn iterate_file(
    file: &File,
    board: Board,
    line: &[u8],
    words: &mut [u32],
    scratch: &mut [u32],
) -> Result<(), Fault> {
    require(is_valid(file, words, board.cells, scratch))?;
    let inputs = line::read(file, line).ok_or(Refusal::InputLine.in_frame(0))?;
    let mut evaluation = Evaluation::new(file, words);
    take_inputs(&mut evaluation, &inputs)?;
    for node in readings::order(file) {
        update(&mut evaluation, board, node)?;
    }
    let mut state = evaluation.into_state();
    slide(file, &mut state, scratch);
    words.copy_from_slice(state.words());
    Ok(())
}

fn take_inputs(evaluation: &mut Evaluation, inputs: &[Rc<Tree>]) -> Result<(), Fault> {
    for (channel, value) in inputs.iter().enumerate() {
        let cell = evaluation.heap.make_tree(value);
        let frame = evaluation.file.channel_frame(channel);
        evaluation.current[channel] = cell.ok_or(Refusal::HeapSpent.in_frame(frame))?;
    }
    Ok(())
}

/// Each node starts with all slots and calls.
fn update(evaluation: &mut Evaluation, board: Board, node: usize) -> Result<(), Fault> {
    let file = evaluation.file;
    let channel = file.node_channel(node);
    let room = Room {
        slots: board.slots,
        calls: board.calls,
    };
    let value = evaluation.update(room, node);
    let frame = file.channel_frame(channel);
    evaluation.current[channel] = value.map_err(|refusal| refusal.in_frame(frame))?;
    Ok(())
}
