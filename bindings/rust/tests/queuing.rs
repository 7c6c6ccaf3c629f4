// SPDX-License-Identifier: MIT OR Apache-2.0
//! The sink with a worker thread.
use cadence::prelude::*;
use cadence::{
    BufferedSpyMetricSink, MetricSink, NopMetricSink, QueuePolicy, QueuingMetricSink, SinkStats, SpyMetricSink, StatsdClient,
};
use std::io;
use std::panic::{catch_unwind, AssertUnwindSafe};
use std::sync::atomic::{AtomicU64, Ordering};
use std::sync::mpsc::{channel, Receiver, Sender};
use std::sync::{Arc, Mutex};
use std::thread;
use std::time::{Duration, Instant};

const LONG: Duration = Duration::from_secs(60);

fn until(what: impl Fn() -> bool) {
    let start = Instant::now();
    while !what() {
        assert!(start.elapsed() < Duration::from_secs(60), "it never comes true");
        thread::yield_now();
    }
}

fn texts(receiver: &cadence::ext::SpyReceiver<Vec<u8>>) -> Vec<String> {
    receiver.iter().map(|line| String::from_utf8(line).unwrap()).collect()
}

#[test]
fn lines_are_handed_on_in_order_and_after_the_drop_too() {
    let (receiver, spy) = SpyMetricSink::new();
    let sink = QueuingMetricSink::from(spy);
    let lines: Vec<String> = (0..1_000).map(|n| format!("k:{n}|c")).collect();
    for line in &lines {
        assert_eq!(line.len(), sink.emit(line).unwrap());
    }
    assert_eq!(1_000, sink.submitted());
    drop(sink);
    assert_eq!(lines, texts(&receiver));
}

/// A sink that takes each line only when the test lets it.
struct Gate {
    leave: Mutex<Receiver<()>>,
}

fn gate() -> (Sender<()>, Gate) {
    let (sender, receiver) = channel();
    (sender, Gate { leave: Mutex::new(receiver) })
}

impl MetricSink for Gate {
    fn emit(&self, metric: &str) -> io::Result<usize> {
        let _ = self.leave.lock().unwrap().recv();
        Ok(metric.len())
    }
}

#[test]
fn a_full_queue_refuses() {
    let (leave, gate) = gate();
    let sink = QueuingMetricSink::with_capacity(gate, 2);
    sink.emit("a").unwrap();
    until(|| sink.drained() == 1);
    sink.emit("b").unwrap();
    sink.emit("c").unwrap();
    assert_eq!("channel full", sink.emit("d").unwrap_err().to_string());
    assert_eq!((3, 1, 2), (sink.submitted(), sink.drained(), sink.queued()));
    leave.send(()).unwrap();
    until(|| sink.drained() == 2);
    sink.emit("e").unwrap();
    assert_eq!(4, sink.submitted());
}

#[test]
fn a_full_queue_still_ends_and_drops_the_wrapped_sink() {
    struct Told(Gate, Sender<&'static str>);
    impl MetricSink for Told {
        fn emit(&self, metric: &str) -> io::Result<usize> {
            self.0.emit(metric)
        }
    }
    impl Drop for Told {
        fn drop(&mut self) {
            self.1.send("dropped").unwrap();
        }
    }
    let ((leave, gate), (tell, told)) = (gate(), channel());
    let sink = QueuingMetricSink::with_capacity(Told(gate, tell), 1);
    sink.emit("a").unwrap();
    until(|| sink.drained() == 1);
    sink.emit("b").unwrap();
    assert!(sink.emit("c").is_err());
    drop(sink);
    drop(leave);
    assert_eq!("dropped", told.recv_timeout(Duration::from_secs(60)).unwrap());
}

#[test]
fn the_worker_ends_with_the_last_clone() {
    let (receiver, spy) = SpyMetricSink::new();
    let sink = QueuingMetricSink::from(spy);
    let other = sink.clone();
    drop(sink);
    other.emit("a").unwrap();
    assert_eq!(b"a".to_vec(), receiver.recv().unwrap());
    assert_eq!((1, 1), (other.submitted(), other.drained()));
    drop(other);
    assert!(receiver.recv().is_err());
}

struct Panicking {
    every: u64,
    calls: AtomicU64,
}

impl MetricSink for Panicking {
    fn emit(&self, metric: &str) -> io::Result<usize> {
        let nth = self.calls.fetch_add(1, Ordering::SeqCst) + 1;
        assert!(nth % self.every != 0, "this sink is meant to panic");
        Ok(metric.len())
    }
}

#[test]
fn the_worker_goes_on_after_panics() {
    for (every, panics) in [(1, 3), (2, 1)] {
        let sink = QueuingMetricSink::from(Panicking { every, calls: AtomicU64::new(0) });
        let caught = catch_unwind(AssertUnwindSafe(|| ["a", "b", "c"].map(|line| sink.emit(line).unwrap())));
        assert!(caught.is_ok());
        until(|| sink.drained() == 3 && sink.panics() == panics);
        assert_eq!(0, sink.queued());
    }
}

struct Failing;

impl MetricSink for Failing {
    fn emit(&self, metric: &str) -> io::Result<usize> {
        Err(io::Error::other(metric.to_string()))
    }

    fn flush(&self) -> io::Result<()> {
        Err(io::Error::other("flush"))
    }

    fn stats(&self) -> SinkStats {
        SinkStats { packets_dropped: 7, ..SinkStats::default() }
    }
}

#[test]
fn the_handler_gets_the_errors_of_the_wrapped_sink() {
    let (tell, told) = channel();
    let tell = Mutex::new(tell);
    let sink = QueuingMetricSink::builder()
        .with_capacity(10)
        .with_error_handler(move |error| tell.lock().unwrap().send(error.to_string()).unwrap())
        .build(Failing);
    sink.emit("a").unwrap();
    sink.emit("b").unwrap();
    let get = || told.recv_timeout(Duration::from_secs(60)).unwrap();
    assert_eq!(("a".to_string(), "b".to_string()), (get(), get()));
    assert_eq!("flush", sink.flush().unwrap_err().to_string());
    assert_eq!(7, sink.stats().packets_dropped);
}

#[test]
fn without_a_handler_errors_are_dropped() {
    let sink = QueuingMetricSink::from(Failing);
    sink.emit("a").unwrap();
    until(|| sink.drained() == 1);
    assert_eq!(0, sink.panics());
}

#[test]
fn threads_share_a_queue() {
    let (receiver, spy) = SpyMetricSink::new();
    let client = Arc::new(StatsdClient::from_sink("p", QueuingMetricSink::from(spy)));
    let threads: Vec<_> = (0..4)
        .map(|_| {
            let client = Arc::clone(&client);
            thread::spawn(move || (0..5_000).for_each(|n| drop(client.count("k", n).unwrap())))
        })
        .collect();
    threads.into_iter().for_each(|thread| thread.join().unwrap());
    drop(client);
    assert_eq!(20_000, texts(&receiver).len());
}

#[test]
fn a_queue_of_capacity_0_takes_a_line_while_its_worker_waits() {
    let sink = QueuingMetricSink::with_capacity(NopMetricSink, 0);
    until(|| sink.emit("a").is_ok());
    until(|| sink.drained() == 1);
}

#[test]
fn a_stop_waits_until_the_wrapped_sink_has_each_line_and_has_flushed() {
    for client_closes in [true, false] {
        let (receiver, packed) = BufferedSpyMetricSink::with_capacity(None, Some(64));
        let sink = QueuingMetricSink::from(packed);
        let client = StatsdClient::from_sink("p", sink.clone());
        (0..2_000).for_each(|n| drop(client.count("k", n).unwrap()));
        let answer = if client_closes { client.close(LONG).is_ok() } else { sink.stop_and_wait(LONG).is_ok() };
        assert!(answer);
        let packets: Vec<_> = receiver.try_iter().flatten().collect();
        let wanted: String = (0..2_000).map(|n| format!("p.k:{n}|c\n")).collect();
        assert_eq!(wanted, String::from_utf8(packets).unwrap());
        assert_eq!("channel disconnected", sink.emit("late").unwrap_err().to_string());
        assert!(client.incr("late").is_err());
        assert_eq!((2_000, 2_000), (sink.submitted(), sink.drained()));
        assert!(sink.stop_and_wait(LONG).is_ok());
    }
}

#[test]
fn a_stop_waits_for_a_line_that_the_wrapped_sink_has_and_only_so_long() {
    let (leave, gate) = gate();
    let sink = QueuingMetricSink::from(gate);
    sink.emit("a").unwrap();
    until(|| sink.drained() == 1);
    let error = sink.stop_and_wait(Duration::from_millis(20)).unwrap_err();
    assert_eq!(io::ErrorKind::TimedOut, error.kind());
    leave.send(()).unwrap();
    assert!(sink.stop_and_wait(LONG).is_ok());
}

#[test]
fn a_stop_over_a_sink_that_panics_or_fails_ends() {
    let sink = QueuingMetricSink::from(Panicking { every: 1, calls: AtomicU64::new(0) });
    assert!(sink.emit("a").is_ok() && sink.emit("b").is_ok());
    assert!(sink.stop_and_wait(LONG).is_ok());
    assert_eq!(2, sink.panics());
    let error = StatsdClient::from_sink("p", QueuingMetricSink::from(Failing)).close(LONG).unwrap_err();
    assert_eq!("flush", error.to_string());
}

#[test]
fn a_full_queue_drops_its_oldest_line() {
    let (leave, gate) = gate();
    let sink = QueuingMetricSink::builder().with_capacity(2).with_policy(QueuePolicy::DropOldest).build(gate);
    sink.emit("a").unwrap();
    until(|| sink.drained() == 1);
    for line in ["b", "c", "d", "e"] {
        sink.emit(line).unwrap();
    }
    assert_eq!((5, 1, 2, 2), (sink.submitted(), sink.drained(), sink.dropped(), sink.queued()));
    (0..3).for_each(|_| leave.send(()).unwrap());
    sink.stop_and_wait(LONG).unwrap();
    assert_eq!((5, 3, 2, 0), (sink.submitted(), sink.drained(), sink.dropped(), sink.queued()));
}

#[test]
fn the_newest_lines_stay() {
    let (receiver, spy) = SpyMetricSink::new();
    let (leave, gate) = gate();
    struct Both(Gate, SpyMetricSink);
    impl MetricSink for Both {
        fn emit(&self, metric: &str) -> io::Result<usize> {
            self.0.emit(metric)?;
            self.1.emit(metric)
        }
    }
    let sink = QueuingMetricSink::builder().with_capacity(2).with_policy(QueuePolicy::DropOldest).build(Both(gate, spy));
    sink.emit("a").unwrap();
    until(|| sink.drained() == 1);
    for line in ["b", "c", "d"] {
        sink.emit(line).unwrap();
    }
    (0..3).for_each(|_| leave.send(()).unwrap());
    drop(sink);
    assert_eq!(["a", "c", "d"], texts(&receiver)[..]);
}

#[test]
fn a_queue_of_no_lines_has_none_to_drop() {
    let (_leave, gate) = gate();
    let sink = QueuingMetricSink::builder().with_capacity(0).with_policy(QueuePolicy::DropOldest).build(gate);
    until(|| sink.emit("a").is_ok());
    assert_eq!("channel full", sink.emit("b").unwrap_err().to_string());
    assert_eq!(0, sink.dropped());
}

/// A sink that counts its flushes, and refuses the first ones.
struct Flushed(Arc<AtomicU64>, u64);

impl MetricSink for Flushed {
    fn emit(&self, metric: &str) -> io::Result<usize> {
        Ok(metric.len())
    }

    fn flush(&self) -> io::Result<()> {
        match self.0.fetch_add(1, Ordering::SeqCst) < self.1 {
            true => Err(io::Error::other("not yet")),
            false => Ok(()),
        }
    }
}

#[test]
fn a_worker_flushes_by_time() {
    for millis in [0, 1, 20] {
        let (receiver, spy) = BufferedSpyMetricSink::new();
        let sink = QueuingMetricSink::builder().with_flush_period(Duration::from_millis(millis)).build(spy);
        for line in ["a:1|c", "b:1|c"] {
            sink.emit(line).unwrap();
            assert_eq!(format!("{line}\n").as_bytes(), receiver.recv_timeout(LONG).unwrap());
        }
        assert!(receiver.is_empty());
    }
}

#[test]
fn a_worker_flushes_at_its_end() {
    let (receiver, spy) = BufferedSpyMetricSink::new();
    let sink = QueuingMetricSink::builder().with_flush_period(Duration::from_secs(3600)).build(spy);
    sink.emit("a:1|c").unwrap();
    drop(sink);
    assert_eq!(["a:1|c\n"], texts(&receiver)[..]);
}

#[test]
fn a_flush_that_fails_is_tried_again_and_told() {
    for period in [Duration::ZERO, Duration::from_nanos(1)] {
        let (flushes, errors) = (Arc::new(AtomicU64::new(0)), Arc::new(AtomicU64::new(0)));
        let counted = Arc::clone(&errors);
        let sink = QueuingMetricSink::builder()
            .with_flush_period(period)
            .with_error_handler(move |_| {
                counted.fetch_add(1, Ordering::SeqCst);
            })
            .build(Flushed(Arc::clone(&flushes), 3));
        let start = Instant::now();
        sink.emit("a").unwrap();
        until(|| flushes.load(Ordering::SeqCst) == 4);
        assert!(start.elapsed() >= Duration::from_millis(3), "it doesn't wait between two tries");
        thread::sleep(Duration::from_millis(20));
        assert_eq!((4, 3), (flushes.load(Ordering::SeqCst), errors.load(Ordering::SeqCst)));
    }
}

#[test]
fn a_worker_ends_though_each_flush_panics() {
    struct Panics(Sender<&'static str>);
    impl MetricSink for Panics {
        fn emit(&self, metric: &str) -> io::Result<usize> {
            Ok(metric.len())
        }
        fn flush(&self) -> io::Result<()> {
            panic!("in a flush");
        }
    }
    impl Drop for Panics {
        fn drop(&mut self) {
            self.0.send("dropped").unwrap();
        }
    }
    for period in [Duration::ZERO, Duration::from_secs(3600)] {
        let (told, hears) = channel();
        let sink = QueuingMetricSink::builder().with_flush_period(period).build(Panics(told));
        sink.emit("a").unwrap();
        until(|| sink.drained() == 1);
        drop(sink);
        assert_eq!("dropped", hears.recv_timeout(LONG).unwrap());
    }
}
