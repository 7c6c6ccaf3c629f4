// SPDX-License-Identifier: MIT OR Apache-2.0
//! A sink that passes lines to another one in a thread of its own.
use super::core::{MetricSink, SinkStats};
use super::line_queue::{line_queue, Callers, QueuePolicy, Worker};
use super::ring::disconnected;
use crate::sync::run_to_end;
use std::cell::Cell;
use std::fmt;
use std::io;
use std::panic::RefUnwindSafe;
use std::sync::atomic::{AtomicBool, AtomicU64, Ordering};
use std::sync::mpsc::RecvTimeoutError;
use std::sync::Arc;
use std::thread;
use std::time::{Duration, Instant};

/// Receives the errors of the wrapped sink.
type Handler = Box<dyn Fn(io::Error) + Sync + Send + RefUnwindSafe>;

/// Makes a [`QueuingMetricSink`] with a capacity, a policy, a flush period and an error handler.
///
/// ```
/// use cadence::{MetricSink, NopMetricSink, QueuingMetricSinkBuilder};
///
/// let sink = QueuingMetricSinkBuilder::new()
///     .with_capacity(1000)
///     .with_error_handler(|error| eprintln!("metric lost: {error}"))
///     .build(NopMetricSink);
/// sink.emit("visits:1|c").unwrap();
/// ```
#[derive(Default)]
pub struct QueuingMetricSinkBuilder {
    errors: Option<Handler>,
    capacity: Option<usize>,
    policy: QueuePolicy,
    period: Option<Duration>,
}

impl QueuingMetricSinkBuilder {
    /// Returns the builder of a sink whose queue has no limit, and which drops the errors of the wrapped sink.
    pub fn new() -> Self {
        Self::default()
    }

    /// Makes the sink and its worker thread.
    ///
    /// # Panics
    ///
    /// If no thread can be started.
    pub fn build<T: MetricSink + Sync + Send + RefUnwindSafe + 'static>(self, sink: T) -> QueuingMetricSink {
        let sink = Arc::new(sink);
        let (callers, lines) = line_queue(self.capacity, self.policy);
        let counts = Arc::new(Counts::default());
        let job = Job {
            lines,
            counts: Arc::clone(&counts),
            sink: Arc::clone(&sink),
            errors: self.errors,
            period: self.period,
            flushed: Cell::new(Instant::now()),
            due_after: Cell::new(None),
        };
        let panics = run_to_end(move || job.run()).expect("a queuing sink needs a thread");
        QueuingMetricSink { queue: Arc::new(callers), counts, panics, sink }
    }

    /// Sets the handler that receives the errors of the wrapped sink, in the worker's thread. If the handler panics,
    /// the worker goes on.
    pub fn with_error_handler<F: Fn(io::Error) + Sync + Send + RefUnwindSafe + 'static>(mut self, error_handler: F) -> Self {
        self.errors = Some(Box::new(error_handler));
        self
    }

    /// Sets how many lines may wait in the queue. With 0, a line is accepted only while the worker waits for one.
    pub fn with_capacity(mut self, capacity: usize) -> Self {
        self.capacity = Some(capacity);
        self
    }

    /// Sets what a full queue does with one line more. Without this it refuses the line. The crate `cadence` doesn't have
    /// this call.
    pub fn with_policy(mut self, policy: QueuePolicy) -> Self {
        self.policy = policy;
        self
    }

    /// Makes the worker flush the wrapped sink if it has passed on a line and this period has passed since its last flush,
    /// and once more at its end. A period below a millisecond counts as one, except that with 0 the worker flushes
    /// whenever no line waits. After an error, which goes to the handler, the worker tries again one period later, and
    /// after a millisecond at least. The crate `cadence` doesn't have this call.
    pub fn with_flush_period(mut self, period: Duration) -> Self {
        self.period = Some(if period.is_zero() { period } else { period.max(MILLISECOND) });
        self
    }
}

const MILLISECOND: Duration = Duration::from_millis(1);

/// What a worker does. What it knows survives a panic of the wrapped sink.
struct Job<T> {
    lines: Worker,
    counts: Arc<Counts>,
    sink: Arc<T>,
    errors: Option<Handler>,
    period: Option<Duration>,
    /// When the sink was flushed last, and how long after that the next flush is due, if one is owed.
    flushed: Cell<Instant>,
    due_after: Cell<Option<Duration>>,
}

impl<T: MetricSink> Job<T> {
    fn run(&self) {
        loop {
            self.counts.passed.store(self.counts.drained.load(Ordering::Relaxed), Ordering::Release);
            match self.lines.wait(self.left()) {
                Ok(line) => self.pass_on(&line),
                Err(RecvTimeoutError::Timeout) => self.flush(),
                Err(RecvTimeoutError::Disconnected) => break,
            }
        }
        if self.due_after.get().is_some() {
            self.flush();
        }
    }

    /// Returns how long the worker may wait for a line before it flushes, if it owes a flush.
    fn left(&self) -> Option<Duration> {
        self.due_after.get().map(|time| time.saturating_sub(self.flushed.get().elapsed()))
    }

    fn pass_on(&self, line: &str) {
        self.counts.drained.fetch_add(1, Ordering::Relaxed);
        self.due_after.set(self.due_after.get().or(self.period));
        self.tell(self.sink.emit(line));
        // Without a time between flushes, a flush waits until no line does.
        if self.period != Some(Duration::ZERO) && self.left() == Some(Duration::ZERO) {
            self.flush();
        }
    }

    fn flush(&self) {
        self.flushed.set(Instant::now());
        // After a panic of the sink no flush is owed, so that a worker at its end doesn't try for ever.
        self.due_after.set(None);
        let result = self.sink.flush();
        if result.is_err() {
            self.due_after.set(self.period.map(|period| period.max(MILLISECOND)));
        }
        self.tell(result);
    }

    fn tell<A>(&self, result: io::Result<A>) {
        if let (Err(error), Some(handler)) = (result, &self.errors) {
            handler(error);
        }
    }
}

#[derive(Debug, Default)]
struct Counts {
    submitted: AtomicU64,
    drained: AtomicU64,
    dropped: AtomicU64,
    /// How many lines the wrapped sink has taken or refused. The last of the drained lines is not one while the sink has it.
    passed: AtomicU64,
    stopped: AtomicBool,
}

/// Puts lines into a queue. A worker thread passes them to another sink, so that a caller doesn't wait for a socket.
///
/// `emit` fails if the queue is full, and the line is not queued then, unless the [policy](QueuePolicy) is to drop the
/// oldest line. A queue without a limit is never full. `flush` flushes the wrapped sink, and doesn't wait for the
/// queue. Clones share the queue. After the drop of the last clone the worker passes on the queued lines, drops the
/// wrapped sink, and ends. The drop doesn't wait for that, so a process that ends calls
/// [`stop_and_wait`](MetricSink::stop_and_wait), or [`close`](crate::StatsdClient::close) of its client. If the
/// wrapped sink panics, the line is lost, and the worker goes on.
///
/// ```
/// use cadence::{MetricSink, QueuingMetricSink, SpyMetricSink};
///
/// let (receiver, spy) = SpyMetricSink::new();
/// let sink = QueuingMetricSink::with_capacity(spy, 1000);
/// sink.emit("visits:1|c").unwrap();
/// assert_eq!(b"visits:1|c".to_vec(), receiver.recv().unwrap());
/// ```
#[derive(Clone)]
pub struct QueuingMetricSink {
    queue: Arc<Callers>,
    counts: Arc<Counts>,
    panics: Arc<AtomicU64>,
    sink: Arc<dyn MetricSink + Send + Sync + RefUnwindSafe>,
}

impl fmt::Debug for QueuingMetricSink {
    fn fmt(&self, f: &mut fmt::Formatter<'_>) -> fmt::Result {
        f.write_str("QueuingMetricSink { Worker { ... } }")
    }
}

impl QueuingMetricSink {
    /// Returns the builder of a sink, which can have a capacity and an error handler.
    pub fn builder() -> QueuingMetricSinkBuilder {
        QueuingMetricSinkBuilder::new()
    }

    /// Makes a sink whose queue has no limit. The queue grows as long as the wrapped sink is slower than the callers.
    ///
    /// # Panics
    ///
    /// If no thread can be started.
    pub fn from<T: MetricSink + Sync + Send + RefUnwindSafe + 'static>(sink: T) -> Self {
        Self::builder().build(sink)
    }

    /// Makes a sink in whose queue at most `capacity` lines wait.
    ///
    /// # Panics
    ///
    /// If no thread can be started.
    pub fn with_capacity<T: MetricSink + Sync + Send + RefUnwindSafe + 'static>(sink: T, capacity: usize) -> Self {
        Self::builder().with_capacity(capacity).build(sink)
    }

    /// Returns how often the wrapped sink or the error handler panicked.
    pub fn panics(&self) -> u64 {
        self.panics.load(Ordering::Relaxed)
    }

    /// Returns how many lines wait: the number of queued lines minus the numbers of lines that were passed on and dropped.
    /// The three numbers are read one after the other.
    pub fn queued(&self) -> u64 {
        self.submitted().saturating_sub(self.drained() + self.dropped())
    }

    /// Returns how many lines were put into the queue.
    pub fn submitted(&self) -> u64 {
        self.counts.submitted.load(Ordering::Relaxed)
    }

    /// Returns how many lines the worker passed on, whatever the wrapped sink returned for them.
    pub fn drained(&self) -> u64 {
        self.counts.drained.load(Ordering::Relaxed)
    }

    /// Returns how many lines were dropped for newer ones. The crate `cadence` doesn't have this call.
    pub fn dropped(&self) -> u64 {
        self.counts.dropped.load(Ordering::Relaxed)
    }
}

impl MetricSink for QueuingMetricSink {
    fn emit(&self, metric: &str) -> io::Result<usize> {
        if self.counts.stopped.load(Ordering::Relaxed) {
            return Err(disconnected());
        }
        let drops = self.queue.add(metric.to_string())?;
        self.counts.submitted.fetch_add(1, Ordering::Relaxed);
        self.counts.dropped.fetch_add(u64::from(drops), Ordering::Relaxed);
        Ok(metric.len())
    }

    fn flush(&self) -> io::Result<()> {
        self.sink.flush()
    }

    /// Makes each later `emit` fail, waits until the worker has passed on the lines of the calls that have returned, and
    /// stops the wrapped sink.
    fn stop_and_wait(&self, timeout: Duration) -> io::Result<()> {
        let start = Instant::now();
        self.counts.stopped.store(true, Ordering::Relaxed);
        while self.counts.passed.load(Ordering::Acquire) + self.dropped() < self.submitted() {
            if start.elapsed() >= timeout {
                return Err(io::Error::new(io::ErrorKind::TimedOut, "lines are left in the queue"));
            }
            thread::sleep(Duration::from_millis(1));
        }
        self.sink.stop_and_wait(timeout.saturating_sub(start.elapsed()))
    }

    fn stats(&self) -> SinkStats {
        self.sink.stats()
    }
}
