// SPDX-License-Identifier: MIT OR Apache-2.0
//! A sink that adds up lines before it passes them to another one.
use super::core::{MetricSink, SinkStats};
use super::flush_timer::FlushTimer;
use crate::sums::Sums;
use std::fmt;
use std::io;
use std::panic::{catch_unwind, AssertUnwindSafe, RefUnwindSafe};
use std::process;
use std::sync::atomic::{AtomicU64, Ordering};
use std::sync::{Arc, Condvar, Mutex, MutexGuard, PoisonError};
use std::thread::{self, ThreadId};
use std::time::Duration;

/// Receives the errors of flushes.
#[derive(Clone)]
struct Handler(Arc<dyn Fn(io::Error) + Sync + Send + RefUnwindSafe>);

impl fmt::Debug for Handler {
    fn fmt(&self, f: &mut fmt::Formatter<'_>) -> fmt::Result {
        f.write_str("Handler { .. }")
    }
}

/// Makes an [`AggregatingMetricSink`]. Without other settings the sink holds at most 4096 contexts of each kind and lines
/// of at most 512 bytes, passes on timers, histograms and distributions, and is flushed by its callers alone.
///
/// ```
/// use std::time::Duration;
/// use cadence::{AggregatingMetricSinkBuilder, MetricSink, SpyMetricSink};
///
/// let (receiver, spy) = SpyMetricSink::new();
/// let builder = AggregatingMetricSinkBuilder::new().with_max_contexts(1000).with_flush_period(Duration::from_secs(60));
/// let sink = builder.build(spy).unwrap();
/// sink.emit("visits:1|c").unwrap();
/// sink.emit("visits:2|c").unwrap();
/// sink.flush().unwrap();
/// assert_eq!(b"visits:3|c".to_vec(), receiver.recv().unwrap());
/// ```
#[derive(Clone)]
pub struct AggregatingMetricSinkBuilder {
    contexts: usize,
    longest: usize,
    packed: bool,
    period: Option<Duration>,
    errors: Option<Handler>,
}

impl fmt::Debug for AggregatingMetricSinkBuilder {
    fn fmt(&self, f: &mut fmt::Formatter<'_>) -> fmt::Result {
        f.write_str("AggregatingMetricSinkBuilder { .. }")
    }
}

impl Default for AggregatingMetricSinkBuilder {
    fn default() -> Self {
        Self::new()
    }
}

impl AggregatingMetricSinkBuilder {
    /// Returns a builder without any setting.
    pub fn new() -> Self {
        AggregatingMetricSinkBuilder { contexts: 4096, longest: 512, packed: false, period: None, errors: None }
    }

    /// Sets how many contexts of each kind are held. A new context in a full table first sends the oldest one. 0 counts
    /// as 1.
    pub fn with_max_contexts(mut self, contexts: usize) -> Self {
        self.contexts = contexts.max(1);
        self
    }

    /// Sets the most bytes of a line that is held. A longer line is passed on at once, and values are packed up to this
    /// length.
    pub fn with_max_line(mut self, bytes: usize) -> Self {
        self.longest = bytes;
        self
    }

    /// Packs the values of each timer, histogram and distribution into one line, as `t:1:2:3|ms`. Not every server reads
    /// such a line.
    pub fn with_packed_values(mut self) -> Self {
        self.packed = true;
        self
    }

    /// Sets a period. A thread flushes the sink after each period. A period below one millisecond counts as one
    /// millisecond. What a failed flush didn't send is tried again after one more period. Without a handler the errors of
    /// these flushes are dropped.
    pub fn with_flush_period(mut self, period: Duration) -> Self {
        self.period = Some(period.max(Duration::from_millis(1)));
        self
    }

    /// Sets the handler, which receives the error of each flush that fails: of those of the thread, of those of callers,
    /// who also get it as the result, and the last error of the drop. It runs in the thread that flushes, while no lock is
    /// held. If it panics, the sink's thread and the drop go on.
    pub fn with_error_handler<F: Fn(io::Error) + Sync + Send + RefUnwindSafe + 'static>(mut self, error_handler: F) -> Self {
        self.errors = Some(Handler(Arc::new(error_handler)));
        self
    }

    /// Makes the sink, and starts its thread if there is a period. It fails if memory runs out, or if the thread can't be
    /// started.
    pub fn build<S: MetricSink + Send + Sync + 'static>(self, sink: S) -> io::Result<AggregatingMetricSink<S>> {
        let locked = Arc::new(Locked::new(&self, sink)?);
        let timer = match self.period {
            Some(period) => {
                let flushed = Arc::clone(&locked);
                Some(FlushTimer::start(move || drop(flushed.flush()), period)?)
            }
            None => None,
        };
        Ok(AggregatingMetricSink { _timer: timer, locked })
    }
}

/// Adds up lines before it passes them to another sink. A context is a line without its values. The counters of a context
/// are summed, of a gauge's values the last one is held, and of a set each member once. A flush passes on one line for each
/// context, and then flushes the other sink. The drop flushes too, and tries again as long as it passes a line on. What the
/// other sink still refuses then is lost.
///
/// These lines are not held, but passed on at once: lines with a time, meters, counters with decimal places, lines that
/// are too long, and, unless values are packed, timers, histograms and distributions. `emit` fails if the other sink
/// refuses such a line, which is dropped then. A line of what was held waits until the other sink takes it. `emit`
/// fails too if such lines wait, and there is no room for one more. The line is not added then. After any other call
/// the line is added.
///
/// The other sink may call this one, for example to count its packets: then the line is added, and what has to be passed on
/// is passed on after the line that the other sink is taking. If the other sink panics, the call panics, and the line that
/// the other sink was taking is lost. The drop doesn't panic.
///
/// The library that adds up lines is proved: the lines that it gives back, with what is held, say the same to a server as
/// the lines that were added.
#[derive(Debug)]
pub struct AggregatingMetricSink<S: MetricSink> {
    // It is dropped first, so that its thread has ended before the sink is dropped.
    _timer: Option<FlushTimer>,
    locked: Arc<Locked<S>>,
}

impl<S: MetricSink> AggregatingMetricSink<S> {
    /// Makes a sink with the settings of a new builder. It starts no thread. It fails if memory runs out.
    pub fn from(sink: S) -> io::Result<Self> {
        let locked = Locked::new(&AggregatingMetricSinkBuilder::new(), sink)?;
        Ok(AggregatingMetricSink { _timer: None, locked: Arc::new(locked) })
    }

    /// Makes the key of the counter that a line raises, or of the gauge that it sets. Which number the line has makes no
    /// difference. Make a key once for each context and keep it: it takes memory until the sink is dropped. The error is of
    /// kind `InvalidInput` if the line does neither, or can't be added.
    ///
    /// ```
    /// use cadence::{AggregatingMetricSink, MetricSink, SpyMetricSink};
    ///
    /// let (receiver, spy) = SpyMetricSink::new();
    /// let sink = AggregatingMetricSink::from(spy).unwrap();
    /// let visits = sink.key("my.service.visits:0|c|#host:a").unwrap();
    /// sink.add(visits, 1).unwrap();
    /// sink.add(visits, 2).unwrap();
    /// sink.flush().unwrap();
    /// assert_eq!(b"my.service.visits:3|c|#host:a".to_vec(), receiver.recv().unwrap());
    /// ```
    pub fn key(&self, line: &str) -> io::Result<LineKey> {
        let number = self.locked.turns().sums.key(line)?;
        Ok(LineKey { number, sink: self.locked.number })
    }

    /// Raises the counter of a key by a number, or sets the gauge of a key to it, and makes no line. It does what `emit`
    /// does with the line of this number, but a line that has to be sent at once waits if the other sink refuses it. It
    /// fails if such lines wait, and there is no room for one more. The error is of kind `InvalidInput` if the key is that
    /// of another sink, or if the number of a gauge is negative. After an error the number is not added.
    pub fn add(&self, key: LineKey, number: i64) -> io::Result<()> {
        if key.sink != self.locked.number {
            return Err(io::Error::new(io::ErrorKind::InvalidInput, "the key is that of another sink"));
        }
        self.locked.add(key.number, number)
    }
}

/// The key of a counter or a gauge: its name, tags and all else that its lines have, except the number. An
/// [`AggregatingMetricSink`] makes it, and adds numbers up by it without making a line.
#[derive(Clone, Copy, Debug)]
pub struct LineKey {
    number: usize,
    sink: u64,
}

impl<S: MetricSink> MetricSink for AggregatingMetricSink<S> {
    fn emit(&self, metric: &str) -> io::Result<usize> {
        self.locked.emit(metric)
    }

    fn flush(&self) -> io::Result<()> {
        self.locked.flush()
    }

    fn stop_and_wait(&self, timeout: Duration) -> io::Result<()> {
        self.locked.flush()?;
        self.locked.sink.stop_and_wait(timeout)
    }

    fn stats(&self) -> SinkStats {
        self.locked.sink.stats()
    }
}

/// Sums, and the thread that passes their lines on, if one does. Another thread waits for its turn, so that lines come in
/// order.
#[derive(Debug)]
struct Turns {
    sums: Sums,
    // The line that the other sink has refused, which comes first.
    refused: Option<String>,
    // How many lines the other sink took.
    passed: u64,
    passer: Option<Passer>,
    waiting: usize,
}

/// A thread that passes lines on. A forked child doesn't have it.
#[derive(Clone, Copy, Debug, PartialEq)]
struct Passer {
    thread: ThreadId,
    process: u32,
}

impl Passer {
    fn current() -> Passer {
        Passer { thread: thread::current().id(), process: process::id() }
    }
}

impl Turns {
    /// Takes out the line that comes first.
    fn take_first(&mut self) -> Option<String> {
        if self.refused.is_some() {
            return self.refused.take();
        }
        // A line was made of texts in UTF-8.
        let line = String::from_utf8_lossy(self.sums.first()?).into_owned();
        self.sums.drop_first();
        Some(line)
    }
}

/// Sums under a lock, which is free while the other sink takes a line.
#[derive(Debug)]
struct Locked<S: MetricSink> {
    turns: Mutex<Turns>,
    ended: Condvar,
    sink: S,
    errors: Option<Handler>,
    // No two of a process have the same, so that a key of one isn't taken for that of another.
    number: u64,
}

/// What the other sink said of a line, and whether it is the line of the call.
struct Refusal {
    error: io::Error,
    is_own: bool,
}

/// Ends the turn of a thread, also if the other sink panics.
struct Turn<'a, S: MetricSink>(&'a Locked<S>);

impl<S: MetricSink> Drop for Turn<'_, S> {
    fn drop(&mut self) {
        let mut turns = self.0.turns();
        turns.passer = None;
        if turns.waiting > 0 {
            self.0.ended.notify_all();
        }
    }
}

impl<S: MetricSink> Locked<S> {
    fn new(settings: &AggregatingMetricSinkBuilder, sink: S) -> io::Result<Self> {
        static MADE: AtomicU64 = AtomicU64::new(0);
        let sums = Sums::new(settings.contexts, settings.longest, settings.packed)?;
        let turns = Mutex::new(Turns { sums, refused: None, passed: 0, passer: None, waiting: 0 });
        let (errors, number) = (settings.errors.clone(), MADE.fetch_add(1, Ordering::Relaxed));
        Ok(Locked { turns, ended: Condvar::new(), sink, errors, number })
    }

    fn turns(&self) -> MutexGuard<'_, Turns> {
        self.turns.lock().unwrap_or_else(PoisonError::into_inner)
    }

    /// Waits until no other thread passes lines on. Returns whether this thread does: then the other sink makes this call.
    fn enter(&self) -> (MutexGuard<'_, Turns>, bool) {
        let mut turns = self.turns();
        while let Some(passer) = turns.passer {
            let caller = Passer::current();
            if passer == caller {
                return (turns, true);
            }
            if passer.process != caller.process {
                turns.passer = None;
                break;
            }
            turns.waiting += 1;
            turns = self.ended.wait(turns).unwrap_or_else(PoisonError::into_inner);
            turns.waiting -= 1;
        }
        (turns, false)
    }

    /// Changes the sums by a call that returns false while lines that wait have to be passed on before. Then passes on the
    /// lines that wait, of which `own` is the one of the caller. Returns what the other sink refuses.
    fn change(&self, own: &str, mut call: impl FnMut(&mut Sums) -> io::Result<bool>) -> io::Result<Option<Refusal>> {
        let (mut turns, is_inner) = self.enter();
        while !call(&mut turns.sums)? {
            if is_inner {
                return Err(io::Error::new(io::ErrorKind::WouldBlock, "too many lines wait for the other sink"));
            }
            if let Some(refusal) = self.pass_on(turns, "") {
                return Err(refusal.error);
            }
            turns = self.enter().0;
        }
        // The call around an inner one passes on what waits.
        Ok(if is_inner { None } else { self.pass_on(turns, own) })
    }

    fn emit(&self, line: &str) -> io::Result<usize> {
        match self.change(line, |sums| sums.add(line))? {
            Some(refusal) if refusal.is_own => Err(refusal.error),
            _ => Ok(line.len()),
        }
    }

    fn add(&self, key: usize, number: i64) -> io::Result<()> {
        // What the other sink refuses waits, and comes first at the next call.
        self.change("", |sums| sums.add_number(key, number)).map(drop)
    }

    fn flush(&self) -> io::Result<()> {
        self.flush_untold().inspect_err(|error| self.tell(copy_of(error)))
    }

    fn flush_untold(&self) -> io::Result<()> {
        if let Some(refusal) = self.change("", Sums::flush)? {
            return Err(refusal.error);
        }
        if self.turns().passer == Some(Passer::current()) {
            return Ok(());
        }
        self.sink.flush()
    }

    fn tell(&self, error: io::Error) {
        if let Some(Handler(handle)) = &self.errors {
            handle(error);
        }
    }

    /// Passes on the lines that wait. Each is taken out before the other sink gets it, so that this sink may call this one,
    /// and so that a panic loses this line alone. A line that it refuses comes first at the next call, unless it is `own`.
    fn pass_on<'a>(&'a self, mut turns: MutexGuard<'a, Turns>, own: &str) -> Option<Refusal> {
        let mut line = turns.take_first()?;
        turns.passer = Some(Passer::current());
        let _turn = Turn(self);
        loop {
            drop(turns);
            let result = self.sink.emit(&line);
            turns = self.turns();
            if let Err(error) = result {
                let is_own = line == own;
                turns.refused = if is_own { None } else { Some(line) };
                drop(turns);
                return Some(Refusal { error, is_own });
            }
            turns.passed += 1;
            match turns.take_first() {
                Some(next) => line = next,
                None => break,
            }
        }
        drop(turns);
        None
    }
}

impl<S: MetricSink> Drop for Locked<S> {
    /// Passes on what is held, and tries again after a refusal, as long as a try passes a line on. Then flushes the
    /// other sink, and reports the last refusal. A panic of the other sink or of the handler goes no further, because
    /// it may come while another one unwinds. That of the other sink loses its line.
    fn drop(&mut self) {
        let refused = loop {
            let before = self.turns().passed;
            let tried = catch_unwind(AssertUnwindSafe(|| self.change("", Sums::flush)));
            match tried.map(|tried| tried.map_or_else(Some, |refusal| refusal.map(|refusal| refusal.error))) {
                Ok(None) => break None,
                Ok(refused) if self.turns().passed == before => break refused,
                _ => {}
            }
        };
        let flushed = catch_unwind(AssertUnwindSafe(|| self.sink.flush()));
        if let Some(error) = refused.or(flushed.ok().and_then(Result::err)) {
            let _ = catch_unwind(AssertUnwindSafe(|| self.tell(error)));
        }
    }
}

/// Makes an error of the same kind and text.
fn copy_of(error: &io::Error) -> io::Error {
    match error.raw_os_error() {
        Some(code) => io::Error::from_raw_os_error(code),
        None => io::Error::new(error.kind(), error.to_string()),
    }
}
