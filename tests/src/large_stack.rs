//! Work on a stack of its own: terms may be as deep as they are large, and what goes over them calls itself.

use std::panic::resume_unwind;
use std::thread::{self, JoinHandle};

/// Runs on a stack of 256 MiB.
pub fn on_a_large_stack<T: Send + 'static>(
    run: impl FnOnce() -> T + Send + 'static,
) -> JoinHandle<T> {
    let thread = thread::Builder::new().stack_size(256 << 20).spawn(run);
    thread.expect("a thread")
}

/// What it came to; a panic goes on here.
pub fn ended<T>(thread: JoinHandle<T>) -> T {
    thread.join().unwrap_or_else(|panic| resume_unwind(panic))
}
