//! A stack deep enough for any file.

use std::io;
use std::thread;

/// The checker may go 1,024 bodies deep, each nested 32. Calls one in the
/// argument of the other take most stack a level. Such a file
/// (`deepest_bodies` of the generator) was checked on threads of falling stack
/// size: built for release it passes with 24 MiB and overflows with 22, built
/// for debugging it passes with 72 MiB and overflows with 64. Pages that are
/// not touched cost nothing, so the margin is wide.
pub const STACK_BYTES: usize = 1 << 30;

/// Runs `work` on a thread with such a stack and waits for its result.
pub fn with_deep_stack<T, W>(work: W) -> io::Result<T>
where
    T: Send + 'static,
    W: FnOnce() -> T + Send + 'static,
{
    let deep = thread::Builder::new().stack_size(STACK_BYTES).spawn(work)?;
    deep.join()
        .map_err(|_| io::Error::other("the deep thread ended early"))
}
