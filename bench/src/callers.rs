//! Lines of several threads that never pause, and a service.

use crate::arguments::Arguments;
use crate::done::{Done, Note};
use crate::sinks::{done_by, make_begun_queue, make_buffered_sink, make_line, make_queue, wait_until_drained, MOST_DATAGRAMS};
use cadence::prelude::*;
use cadence::{MetricError, MetricSink, QueuingMetricSink, StatsdClient};
use std::hint::black_box;
use std::io;
use std::sync::{Arc, Barrier, Mutex};
use std::thread;
use std::time::{Duration, Instant};

// Makes this many calls from several threads, which begin together. Returns the time from when the first of them began
// until the last one ended, and how many calls succeeded.
fn together(arguments: &Arguments, calls: u64, call: impl Fn(u64) -> bool + Sync) -> (Duration, u64) {
    let each = calls / arguments.callers();
    let ready = Barrier::new(arguments.callers() as usize);
    thread::scope(|scope| {
        let turns = || {
            ready.wait();
            let begun = Instant::now();
            let succeeded = (0..each).filter(|&i| call(i)).count() as u64;
            (begun, Instant::now(), succeeded)
        };
        let threads: Vec<_> = (0..arguments.callers()).map(|_| scope.spawn(turns)).collect();
        let all = threads.into_iter().map(|thread| thread.join().expect("a caller panics"));
        let (begun, ended, succeeded) = all
            .reduce(|(begun, ended, sum), (from, to, count)| (begun.min(from), ended.max(to), sum + count))
            .expect("there is a caller");
        (ended - begun, succeeded)
    })
}

/// Emits lines into a queue over a sink that does nothing.
pub fn queue(arguments: &Arguments) -> Result<Done, MetricError> {
    let line = make_line(arguments.sizes[1]);
    let queue = make_begun_queue(&line, arguments.sizes[0])?;
    let start = Instant::now();
    let (time, accepted) = together(arguments, arguments.calls, |_| queue.emit(black_box(&line)).is_ok());
    wait_until_drained(&queue, accepted + 1);
    Ok(Done::of_queue(time, arguments.sizes[0], accepted, start.elapsed()))
}

// A sink whose calls sleep until the lock is free.
struct GatedSink(Arc<Mutex<()>>);

impl MetricSink for GatedSink {
    fn emit(&self, metric: &str) -> io::Result<usize> {
        let _open = self.0.lock();
        Ok(metric.len())
    }
}

/// Emits lines that a full queue refuses. Its worker sleeps in the sink, so that it takes no line and no processor.
pub fn refused(arguments: &Arguments) -> Result<Done, MetricError> {
    let (line, gate) = (make_line(arguments.sizes[1]), Arc::new(Mutex::new(())));
    let closed = gate.lock();
    let queue = make_queue(GatedSink(gate.clone()), arguments.sizes[0].max(1));
    queue.emit(&line)?;
    wait_until_drained(&queue, 1);
    while queue.emit(&line).is_ok() {}
    let (time, accepted) = together(arguments, arguments.calls, |_| queue.emit(black_box(&line)).is_ok());
    drop(closed);
    Ok(Done { time, check: accepted, note: Note::Nothing })
}

/// Emits lines into one buffered UDP sink.
pub fn udp(arguments: &Arguments) -> Result<Done, MetricError> {
    let line = make_line(arguments.sizes[1]);
    let (_server, sink) = make_buffered_sink(arguments.sizes[0])?;
    let (time, _) = together(arguments, arguments.calls.min(MOST_DATAGRAMS), |_| sink.emit(black_box(&line)).is_ok());
    sink.flush()?;
    Ok(done_by(time, &sink))
}

// A queue that a client and this program share.
struct SharedQueue(Arc<QueuingMetricSink>);

impl MetricSink for SharedQueue {
    fn emit(&self, metric: &str) -> io::Result<usize> {
        self.0.emit(metric)
    }

    fn flush(&self) -> io::Result<()> {
        self.0.flush()
    }
}

/// Sends counters with a tag, through a queue and its worker, into a buffered UDP sink of 512 bytes.
pub fn service(arguments: &Arguments) -> Result<Done, MetricError> {
    let capacity = arguments.sizes[0];
    let (_server, sink) = make_buffered_sink(512)?;
    let queue = Arc::new(make_queue(sink, capacity));
    let client = StatsdClient::from_sink("my.service", SharedQueue(queue.clone()));
    let start = Instant::now();
    let (time, accepted) = together(arguments, arguments.calls, |i| {
        let call = client.count_with_tags(black_box("visits"), black_box((i % 1000) as i64));
        call.with_tag(black_box("page"), black_box("home")).try_send().is_ok()
    });
    wait_until_drained(&queue, accepted);
    client.flush()?;
    Ok(Done::of_queue(time, capacity, accepted, start.elapsed()))
}
