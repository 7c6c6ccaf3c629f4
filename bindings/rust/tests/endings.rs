// SPDX-License-Identifier: MIT OR Apache-2.0
//! How sinks with a thread end: with their process, in a forked child, and under a handler that calls back.
use cadence::prelude::*;
use cadence::{
    AggregatingMetricSink, AggregatingMetricSinkBuilder, BufferedUdpMetricSink, MetricSink, QueuePolicy, QueuingMetricSink,
    QueuingMetricSinkBuilder, SpyMetricSink, StatsdClient,
};
use std::io;
use std::net::UdpSocket;
use std::panic::AssertUnwindSafe;
use std::process::{exit, Command};
use std::sync::atomic::{AtomicBool, Ordering};
use std::sync::{Arc, OnceLock};
use std::thread;
use std::time::{Duration, Instant};

const LONG: Duration = Duration::from_secs(60);
const POLICIES: [QueuePolicy; 2] = [QueuePolicy::Refuse, QueuePolicy::DropOldest];

/// A queue that holds many lines. Its worker flushes by a time that never comes.
fn queue(policy: QueuePolicy) -> QueuingMetricSinkBuilder {
    QueuingMetricSink::builder().with_capacity(10_000).with_policy(policy).with_flush_period(Duration::from_secs(3600))
}

extern "C" {
    fn fork() -> i32;
    fn waitpid(process: i32, status: *mut i32, options: i32) -> i32;
    fn kill(process: i32, signal: i32) -> i32;
    fn _exit(status: i32) -> !;
}

/// Runs a function in a forked child, and returns its answer as the child's exit status.
fn in_child(run: impl FnOnce() -> u8) -> i32 {
    const NOT_YET: i32 = 1; // WNOHANG
    let start = Instant::now();
    unsafe {
        let child = fork();
        if child == 0 {
            _exit(std::panic::catch_unwind(AssertUnwindSafe(run)).map_or(101, i32::from));
        }
        let mut status = 0;
        while waitpid(child, &mut status, NOT_YET) == 0 {
            if start.elapsed() > LONG {
                kill(child, 9);
            }
            thread::sleep(Duration::from_millis(1));
        }
        status >> 8 | (status & 0x7f) << 8
    }
}

#[test]
fn a_forked_child_has_no_worker_and_ends_all_the_same() {
    for policy in POLICIES {
        let (receiver, spy) = SpyMetricSink::new();
        let sink = queue(policy).build(spy);
        sink.emit("before:1|c").unwrap();
        assert_eq!(b"before:1|c".to_vec(), receiver.recv_timeout(LONG).unwrap());
        thread::sleep(Duration::from_millis(20));
        let status = in_child(|| {
            let queued = sink.emit("child:1|c").is_ok();
            let stopped = sink.stop_and_wait(Duration::from_millis(20));
            let kind = stopped.map_err(|error| error.kind());
            drop(sink.clone());
            u8::from(queued && kind == Err(io::ErrorKind::TimedOut) && sink.queued() == 1)
        });
        assert_eq!(1, status, "{policy:?}");
        sink.emit("after:1|c").unwrap();
        assert_eq!(b"after:1|c".to_vec(), receiver.recv_timeout(LONG).unwrap());
    }
}

#[test]
fn a_forked_child_drops_sums_without_sending_them() {
    let (receiver, spy) = SpyMetricSink::new();
    let sink = AggregatingMetricSinkBuilder::new().with_flush_period(Duration::from_secs(3600)).build(spy).unwrap();
    let sink = std::sync::Mutex::new(Some(sink));
    let emit = |line| sink.lock().unwrap().as_ref().unwrap().emit(line).is_ok();
    assert!(emit("visits:1|c"));
    thread::sleep(Duration::from_millis(20));
    let status = in_child(|| {
        let added = emit("visits:5|c");
        drop(sink.lock().unwrap().take());
        u8::from(added && receiver.try_recv().is_err())
    });
    assert_eq!(1, status);
    assert!(emit("visits:2|c"));
    drop(sink.lock().unwrap().take());
    assert_eq!(b"visits:3|c".to_vec(), receiver.recv_timeout(LONG).unwrap());
}

/// A sink that takes slow lines until a test ends.
struct Slow;

static IS_BUSY: AtomicBool = AtomicBool::new(false);
static IS_DONE: AtomicBool = AtomicBool::new(false);

impl MetricSink for Slow {
    fn emit(&self, metric: &str) -> io::Result<usize> {
        while metric.starts_with("slow") && !IS_DONE.load(Ordering::Relaxed) {
            IS_BUSY.store(true, Ordering::Relaxed);
            thread::yield_now();
        }
        Ok(metric.len())
    }
}

#[test]
fn a_forked_child_does_not_wait_for_a_thread_that_passes_lines_on() {
    let sink = AggregatingMetricSink::from(Slow).unwrap();
    thread::scope(|scope| {
        scope.spawn(|| sink.emit("slow:1|ms"));
        while !IS_BUSY.load(Ordering::Relaxed) {
            thread::yield_now();
        }
        let status = in_child(|| u8::from(sink.emit("fast:1|ms").is_ok() && sink.flush().is_ok()));
        IS_DONE.store(true, Ordering::Relaxed);
        assert_eq!(1, status);
    });
}

/// A sink that refuses each line and each flush.
struct Refusing;

impl MetricSink for Refusing {
    fn emit(&self, _metric: &str) -> io::Result<usize> {
        Err(io::Error::other("refused"))
    }

    fn flush(&self) -> io::Result<()> {
        Err(io::Error::other("not flushed"))
    }

    fn stop_and_wait(&self, _timeout: Duration) -> io::Result<()> {
        Ok(())
    }
}

#[test]
fn a_handler_may_put_lines_into_its_own_queue() {
    for policy in POLICIES {
        let own: Arc<OnceLock<QueuingMetricSink>> = Arc::default();
        let called = AssertUnwindSafe(Arc::clone(&own));
        let sink = QueuingMetricSink::builder()
            .with_capacity(2)
            .with_policy(policy)
            .with_flush_period(Duration::from_nanos(1))
            .with_error_handler(move |_| {
                let called = &called;
                (0..3).for_each(|_| drop(called.get().map(|sink| sink.emit("again"))));
            })
            .build(Refusing);
        own.set(sink.clone()).unwrap();
        sink.emit("first").unwrap();
        let start = Instant::now();
        while sink.drained() < 100 {
            assert!(start.elapsed() < LONG, "the worker waits for itself");
            thread::yield_now();
        }
        sink.stop_and_wait(LONG).unwrap();
        assert_eq!((0, 0), (sink.queued(), sink.panics()));
    }
}

/// The lines of a process that ends.
const LINES: usize = 1_000;

/// A process that puts lines into a queue and ends, as the variable says: with `close`, or without.
fn end_of_process(how: &str, port: &str) -> ! {
    let socket = UdpSocket::bind("127.0.0.1:0").unwrap();
    let udp = BufferedUdpMetricSink::with_capacity(format!("127.0.0.1:{port}").as_str(), socket, 512).unwrap();
    let client = StatsdClient::from_sink("p", queue(QueuePolicy::DropOldest).build(udp));
    (0..LINES).for_each(|n| drop(client.count("k", n as i64).unwrap()));
    if how == "close" {
        client.close(LONG).unwrap();
    }
    exit(7);
}

#[test]
fn a_process_that_closes_its_client_loses_no_line_at_its_end() {
    if let (Ok(how), Ok(port)) = (std::env::var("ENDS"), std::env::var("PORT")) {
        end_of_process(&how, &port);
    }
    for how in ["close", "at once"] {
        let socket = UdpSocket::bind("127.0.0.1:0").unwrap();
        socket.set_read_timeout(Some(Duration::from_millis(200))).unwrap();
        let port = socket.local_addr().unwrap().port().to_string();
        let reader = thread::spawn(move || {
            let (mut text, mut packet) = (Vec::new(), [0; 2048]);
            let start = Instant::now();
            loop {
                match socket.recv(&mut packet) {
                    Ok(count) => text.extend_from_slice(&packet[..count]),
                    Err(_) if !text.is_empty() || start.elapsed() > Duration::from_secs(5) => return text,
                    Err(_) => {}
                }
            }
        });
        let name = "a_process_that_closes_its_client_loses_no_line_at_its_end";
        let ended =
            Command::new(std::env::current_exe().unwrap()).args(["--exact", name]).env("ENDS", how).env("PORT", port).output();
        assert_eq!(Some(7), ended.unwrap().status.code());
        let sent = String::from_utf8(reader.join().unwrap()).unwrap();
        let wanted: String = (0..LINES).map(|n| format!("p.k:{n}|c\n")).collect();
        match how {
            "close" => assert_eq!(wanted, sent),
            _ => assert!(wanted.starts_with(&sent), "lines are in order, as far as they were sent"),
        }
    }
}
