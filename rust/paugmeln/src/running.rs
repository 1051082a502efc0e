//! The proved start and iteration, over lent buffers.

use crate::answer::Answer;
use crate::instances::Instance;
use crate::sizes::Sizes;
use crate::stack::{on_stack, ITERATION_STACK_NEEDED, STACK_NEEDED};

extern "C" {
    fn paugmeln_start(
        text: *const u8,
        length: usize,
        cells: u32,
        slots: u32,
        calls: u32,
        list: *mut Instance,
        records: usize,
        state: *mut u32,
        state_words: usize,
        scratch: *mut u32,
        scratch_words: usize,
        environment: *mut u32,
        environment_words: usize,
    ) -> Answer;

    fn paugmeln_iterate(
        text: *const u8,
        length: usize,
        cells: u32,
        slots: u32,
        calls: u32,
        state: *mut u32,
        state_words: usize,
        scratch: *mut u32,
        scratch_words: usize,
        environment: *mut u32,
        environment_words: usize,
        line: *const u8,
        line_length: usize,
    ) -> Answer;
}

/// The buffers of start and iteration. Each is refused with 18 where it is shorter than the board asks:
/// [`Sizes::state_words`], [`SCRATCH_WORDS`](crate::SCRATCH_WORDS), [`Sizes::slot_words`].
///
/// The rest of a longer state is neither read nor written. Scratch and slots may hold anything; they end 0 in their
/// whole length.
#[derive(Debug)]
pub struct Loan<'a> {
    pub state: &'a mut [u32],
    pub scratch: &'a mut [u32],
    pub slots: &'a mut [u32],
}

/// Checks a rule file as [`check`](crate::check) does and fills the state with its initial values, on a thread of its own
/// whose stack is large enough for any file.
///
/// The state's old contents are not looked at; a refused start leaves them. The list ends as after a check.
///
/// # Panics
///
/// Where the system has no room for the thread.
pub fn start(text: &[u8], sizes: Sizes, list: &mut [Instance], loan: Loan) -> Answer {
    // SAFETY: the thread has the stack that is asked for, and nothing else runs on it.
    on_stack(STACK_NEEDED, || unsafe {
        start_on_this_stack(text, sizes, list, loan)
    })
}

/// The same on the stack of the caller.
///
/// # Safety
///
/// [`STACK_NEEDED`] bytes of this stack are free, as for [`check_on_this_stack`](crate::check_on_this_stack).
pub unsafe fn start_on_this_stack(
    text: &[u8],
    sizes: Sizes,
    list: &mut [Instance],
    loan: Loan,
) -> Answer {
    // SAFETY: the text is lent for reading, the others for reading and writing, each with its length. No two of them
    // can overlap, and none is kept. The caller has seen to the stack.
    unsafe {
        paugmeln_start(
            text.as_ptr(),
            text.len(),
            sizes.cells,
            sizes.slots,
            sizes.calls,
            list.as_mut_ptr(),
            list.len(),
            loan.state.as_mut_ptr(),
            loan.state.len(),
            loan.scratch.as_mut_ptr(),
            loan.scratch.len(),
            loan.slots.as_mut_ptr(),
            loan.slots.len(),
        )
    }
}

/// Takes one input line, on a thread of its own whose stack is large enough for any file. A refusal leaves the state.
///
/// # Panics
///
/// Where the system has no room for the thread.
pub fn iterate(text: &[u8], sizes: Sizes, line: &[u8], loan: Loan) -> Answer {
    // SAFETY: the thread has the stack that is asked for, and nothing else runs on it.
    on_stack(ITERATION_STACK_NEEDED, || unsafe {
        iterate_on_this_stack(text, sizes, line, loan)
    })
}

/// The same on the stack of the caller, which spares the thread.
///
/// # Safety
///
/// [`ITERATION_STACK_NEEDED`] bytes of this stack are free.
pub unsafe fn iterate_on_this_stack(text: &[u8], sizes: Sizes, line: &[u8], loan: Loan) -> Answer {
    // SAFETY: text and line are lent for reading, the others for reading and writing, each with its length. No two that
    // are written overlap with another, and none is kept. The caller has seen to the stack.
    unsafe {
        paugmeln_iterate(
            text.as_ptr(),
            text.len(),
            sizes.cells,
            sizes.slots,
            sizes.calls,
            loan.state.as_mut_ptr(),
            loan.state.len(),
            loan.scratch.as_mut_ptr(),
            loan.scratch.len(),
            loan.slots.as_mut_ptr(),
            loan.slots.len(),
            line.as_ptr(),
            line.len(),
        )
    }
}
