//! Threads with the real stack that a call is measured to need. Pages that are not touched cost nothing.

use std::thread;

/// What [`check`](crate::check) and [`start`](crate::start) are lent for any file. The checker may go 1,024 bodies deep,
/// each nested 32, so the need is set by measurement: `tools/measure-checking` prints what the deepest files use, and this
/// is to stay above twice the most of them.
pub const STACK_NEEDED: usize = 256 << 20;

/// What [`iterate`](crate::iterate) is lent for any file. An evaluation may go 64 bodies deep, each nested 32, which was
/// measured to take 960 KiB (docs/PERFORMANCE.md); `tools/measure-running` prints what the whole call uses.
pub const ITERATION_STACK_NEEDED: usize = 4 << 20;

/// Works on a thread of its own with so many bytes of stack.
///
/// # Panics
///
/// Where the system has no room for the thread.
pub(crate) fn on_stack<T: Send>(bytes: usize, work: impl FnOnce() -> T + Send) -> T {
    thread::scope(|scope| {
        let deep = thread::Builder::new().stack_size(bytes);
        let working = deep.spawn_scoped(scope, work);
        let answer = working.expect("room for a deep stack").join();
        answer.expect("the call returns")
    })
}
