// SPDX-License-Identifier: MIT OR Apache-2.0
//! Threads that go on after a panic.
use std::io;
use std::panic::{catch_unwind, AssertUnwindSafe};
use std::sync::atomic::{AtomicU64, Ordering};
use std::sync::Arc;
use std::thread;

/// Runs a job in a thread of its own until the job returns. After a panic, it runs the job again. Returns the count of
/// panics.
pub(crate) fn run_to_end<F: Fn() + Send + 'static>(job: F) -> io::Result<Arc<AtomicU64>> {
    let panics = Arc::new(AtomicU64::new(0));
    let counted = Arc::clone(&panics);
    // What a job shares with other threads is unwind safe, or is a receiver, which stays in order after a panic.
    let run = move || {
        while catch_unwind(AssertUnwindSafe(&job)).is_err() {
            counted.fetch_add(1, Ordering::Relaxed);
        }
    };
    thread::Builder::new().name("cadence".to_string()).spawn(run)?;
    Ok(panics)
}
