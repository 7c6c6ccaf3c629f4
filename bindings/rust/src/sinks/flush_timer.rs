// SPDX-License-Identifier: MIT OR Apache-2.0
//! A thread that flushes a sink again and again.
use std::io;
use std::mem;
use std::panic::{catch_unwind, AssertUnwindSafe};
use std::process;
use std::sync::{Arc, Condvar, Mutex, PoisonError};
use std::thread::{self, JoinHandle};
use std::time::Duration;

/// A thread that flushes after each period. The drop waits until the thread has ended, except in that thread itself and in
/// a forked child, which has no such thread.
#[derive(Debug)]
pub(crate) struct FlushTimer {
    stop: Arc<(Mutex<bool>, Condvar)>,
    // Under a lock, because a client asks for a sink that is `RefUnwindSafe`.
    thread: Mutex<Option<JoinHandle<()>>>,
    process: u32,
}

impl FlushTimer {
    pub(crate) fn start(flush: impl Fn() + Send + 'static, period: Duration) -> io::Result<FlushTimer> {
        let stop = Arc::new((Mutex::new(false), Condvar::new()));
        let told = Arc::clone(&stop);
        let run = move || {
            while !is_stopped_within(&told, period) {
                // What is flushed is in order after a panic.
                let _ = catch_unwind(AssertUnwindSafe(&flush));
            }
        };
        let thread = Mutex::new(Some(thread::Builder::new().name("cadence".to_string()).spawn(run)?));
        Ok(FlushTimer { stop, thread, process: process::id() })
    }
}

/// Waits for this time at most, and returns whether the thread has to stop.
fn is_stopped_within(stop: &(Mutex<bool>, Condvar), period: Duration) -> bool {
    let stopped = stop.0.lock().unwrap_or_else(PoisonError::into_inner);
    let (stopped, _) = stop.1.wait_timeout_while(stopped, period, |stopped| !*stopped).unwrap_or_else(PoisonError::into_inner);
    *stopped
}

impl Drop for FlushTimer {
    fn drop(&mut self) {
        *self.stop.0.lock().unwrap_or_else(PoisonError::into_inner) = true;
        self.stop.1.notify_all();
        match self.thread.get_mut().unwrap_or_else(PoisonError::into_inner).take() {
            Some(thread) if thread.thread().id() == thread::current().id() => drop(thread),
            Some(thread) if self.process == process::id() => drop(thread.join()),
            // A forked child has no such thread.
            thread => mem::forget(thread),
        }
    }
}
