//! The proved checker.

use crate::answer::Answer;
use crate::instances::Instance;
use crate::sizes::Sizes;
use crate::stack::{on_stack, STACK_NEEDED};

extern "C" {
    fn paugmeln_check(
        text: *const u8,
        length: usize,
        cells: u32,
        slots: u32,
        calls: u32,
        list: *mut Instance,
        records: usize,
    ) -> Answer;
}

/// Checks a rule file against a board, on a thread of its own whose stack is large enough for any file.
///
/// The list may hold anything before, and is refused with 18 under [`LIST_RECORDS`](crate::LIST_RECORDS). On acceptance it
/// holds a record for each instance, in order of entry, and empty ones behind them; on refusal every record is empty.
///
/// ```
/// # fn main() -> Result<(), Box<dyn std::error::Error>> {
/// use paugmeln::{Instance, Sizes, LIST_RECORDS};
///
/// let text = std::fs::read("../../examples/listing3.rules")?;
/// let mut list = vec![Instance::EMPTY; LIST_RECORDS];
/// let answer = paugmeln::check(&text, Sizes::LARGEST, &mut list);
/// assert_eq!((answer.number, answer.heap), (0, 25));
/// assert_eq!((list[0].function, list[0].sizes[0]), (0, 4));
/// assert_eq!(paugmeln::instances(&list).len(), 10);
/// # Ok(())
/// # }
/// ```
///
/// # Panics
///
/// Where the system has no room for the thread.
pub fn check(text: &[u8], sizes: Sizes, list: &mut [Instance]) -> Answer {
    // SAFETY: the thread has the stack that is asked for, and nothing else runs on it.
    on_stack(STACK_NEEDED, || unsafe {
        check_on_this_stack(text, sizes, list)
    })
}

/// The same on the stack of the caller.
///
/// # Safety
///
/// [`STACK_NEEDED`] bytes of this stack are free. The checker does not look how much is left: on a smaller stack a file
/// nested deep writes beyond its end. So it is not called without `unsafe`:
///
/// ```compile_fail,E0133
/// paugmeln::check_on_this_stack(b"", paugmeln::Sizes::LARGEST, &mut []);
/// ```
pub unsafe fn check_on_this_stack(text: &[u8], sizes: Sizes, list: &mut [Instance]) -> Answer {
    // SAFETY: the text is lent for reading and the list for reading and writing, each with its length. The two cannot
    // overlap, and neither is kept. The caller has seen to the stack.
    unsafe {
        paugmeln_check(
            text.as_ptr(),
            text.len(),
            sizes.cells,
            sizes.slots,
            sizes.calls,
            list.as_mut_ptr(),
            list.len(),
        )
    }
}
