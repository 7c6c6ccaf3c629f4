// SPDX-License-Identifier: MIT OR Apache-2.0
//! The sink that adds up lines.
use cadence::ext::SpyReceiver;
use cadence::prelude::*;
use cadence::{AggregatingMetricSink, AggregatingMetricSinkBuilder, MetricSink, SinkStats, SpyMetricSink, StatsdClient};
use std::io;
use std::panic::{catch_unwind, AssertUnwindSafe};
use std::sync::atomic::{AtomicBool, AtomicUsize, Ordering};
use std::sync::{Arc, Mutex, OnceLock, Weak};
use std::thread;
use std::time::{Duration, Instant};

fn received(receiver: &SpyReceiver<Vec<u8>>) -> Vec<String> {
    receiver.try_iter().map(|line| String::from_utf8(line).unwrap()).collect()
}

/// Waits until this holds.
fn until(holds: impl Fn() -> bool) {
    let start = Instant::now();
    while !holds() {
        assert!(start.elapsed() < Duration::from_secs(60), "it never comes");
        thread::sleep(Duration::from_millis(1));
    }
}

#[test]
fn a_flush_and_the_drop_pass_on_what_is_held() {
    let (receiver, spy) = SpyMetricSink::new();
    let client = StatsdClient::from_sink("p", AggregatingMetricSink::from(spy).unwrap());
    client.count_with_tags("hits", 1).with_tag("k", "v").send();
    client.count_with_tags("hits", 2).with_tag("k", "v").send();
    client.gauge("load", 0.5).unwrap();
    client.gauge("load", 7).unwrap();
    client.set("users", 3).unwrap();
    client.set("users", 3).unwrap();
    client.time("wait", 12).unwrap();
    assert_eq!(["p.wait:12|ms"], received(&receiver).as_slice());
    client.flush().unwrap();
    assert_eq!(["p.hits:3|c|#k:v", "p.load:7|g", "p.users:3|s"], received(&receiver).as_slice());
    client.incr("hits").unwrap();
    drop(client);
    assert_eq!(["p.hits:1|c"], received(&receiver).as_slice());
}

#[test]
fn the_builder_sets_how_much_is_held() {
    let (receiver, spy) = SpyMetricSink::new();
    let sink =
        AggregatingMetricSinkBuilder::new().with_max_contexts(0).with_max_line(11).with_packed_values().build(spy).unwrap();
    for line in ["a:1|c", "b:1|c", "a_long_name:1|c", "t:1|ms", "t:2:3|ms"] {
        assert_eq!(line.len(), sink.emit(line).unwrap());
    }
    assert_eq!(["a:1|c", "a_long_name:1|c"], received(&receiver).as_slice());
    sink.flush().unwrap();
    assert_eq!(["b:1|c", "t:1:2:3|ms"], received(&receiver).as_slice());
}

#[test]
fn a_line_that_may_set_a_gauge_comes_after_those_that_are_held() {
    let (receiver, spy) = SpyMetricSink::new();
    let sink = AggregatingMetricSink::from(spy).unwrap();
    for line in ["g0:-1|g", "g0:+1|g", "g0:8,5|g", "g0:2|g|T7", "g0:x|g"] {
        for n in 0..100 {
            sink.emit(&format!("g{n}:1|g")).unwrap();
        }
        sink.emit("hits:1|c").unwrap();
        sink.emit(line).unwrap();
        let lines = received(&receiver);
        assert_eq!(101, lines.len());
        assert_eq!(("g0:1|g", line), (lines[0].as_str(), lines[100].as_str()));
    }
    sink.flush().unwrap();
    assert_eq!(["hits:5|c"], received(&receiver).as_slice());
}

#[test]
fn a_period_passes_on_what_is_held() {
    let (receiver, spy) = SpyMetricSink::new();
    let sink = AggregatingMetricSinkBuilder::new().with_flush_period(Duration::ZERO).build(spy).unwrap();
    sink.emit("a:1|c").unwrap();
    assert_eq!(b"a:1|c".to_vec(), receiver.recv().unwrap());
    sink.emit("a:2|c").unwrap();
    assert_eq!(b"a:2|c".to_vec(), receiver.recv().unwrap());
    drop(sink);
    assert!(receiver.recv().is_err());
}

/// Stores each line, or refuses it.
#[derive(Clone, Default)]
struct Fickle {
    refuses: Arc<AtomicBool>,
    refusals: Arc<AtomicUsize>,
    lines: Arc<Mutex<Vec<String>>>,
}

impl MetricSink for Fickle {
    fn emit(&self, metric: &str) -> io::Result<usize> {
        if self.refuses.load(Ordering::Relaxed) {
            self.refusals.fetch_add(1, Ordering::Relaxed);
            return Err(io::ErrorKind::ConnectionRefused.into());
        }
        self.lines.lock().unwrap().push(metric.to_string());
        Ok(metric.len())
    }

    fn stats(&self) -> SinkStats {
        SinkStats { packets_sent: 7, ..SinkStats::default() }
    }
}

#[test]
fn a_refusal_loses_no_line_that_was_held() {
    let below = Fickle::default();
    let sink = AggregatingMetricSinkBuilder::new().with_max_contexts(1).build(below.clone()).unwrap();
    sink.emit("a:1|c").unwrap();
    below.refuses.store(true, Ordering::Relaxed);
    assert_eq!(io::ErrorKind::ConnectionRefused, sink.emit("t:1|ms").unwrap_err().kind());
    sink.emit("b:1|c").unwrap();
    sink.emit("b:2|c").unwrap();
    assert_eq!(io::ErrorKind::ConnectionRefused, sink.flush().unwrap_err().kind());
    below.refuses.store(false, Ordering::Relaxed);
    sink.emit("c:1|c").unwrap();
    sink.flush().unwrap();
    assert_eq!(["a:1|c", "b:3|c", "c:1|c"], below.lines.lock().unwrap().as_slice());
    assert_eq!(7, sink.stats().packets_sent);
}

#[test]
fn a_handler_hears_each_refused_flush_of_the_thread() {
    let below = Fickle::default();
    below.refuses.store(true, Ordering::Relaxed);
    let heard = Arc::new(Mutex::new(Vec::new()));
    let errors = Arc::clone(&heard);
    let builder = AggregatingMetricSinkBuilder::new().with_flush_period(Duration::from_millis(1));
    let handler = move |error: io::Error| {
        errors.lock().unwrap().push(error.kind());
        panic!("this handler is meant to panic");
    };
    let sink = builder.with_error_handler(handler).build(below.clone()).unwrap();
    sink.emit("a:1|c").unwrap();
    until(|| heard.lock().unwrap().len() >= 3);
    below.refuses.store(false, Ordering::Relaxed);
    until(|| !below.lines.lock().unwrap().is_empty());
    drop(sink);
    assert!(heard.lock().unwrap().iter().all(|kind| *kind == io::ErrorKind::ConnectionRefused));
    assert_eq!(below.refusals.load(Ordering::Relaxed), heard.lock().unwrap().len());
    assert_eq!(["a:1|c"], below.lines.lock().unwrap().as_slice());
}

#[test]
fn a_handler_hears_a_refused_flush_of_a_caller_and_the_last_one_of_the_drop() {
    let below = Fickle::default();
    below.refuses.store(true, Ordering::Relaxed);
    let heard = Arc::new(Mutex::new(Vec::new()));
    let errors = Arc::clone(&heard);
    let handler = move |error: io::Error| {
        errors.lock().unwrap().push(error.to_string());
        assert!(errors.lock().unwrap().len() < 2, "this handler is meant to panic in the drop");
    };
    let sink = AggregatingMetricSinkBuilder::new().with_error_handler(handler).build(below.clone()).unwrap();
    sink.emit("a:1|c").unwrap();
    let error = sink.flush().unwrap_err().to_string();
    assert_eq!([error.clone()], heard.lock().unwrap().as_slice());
    drop(sink);
    assert_eq!([error.clone(), error], heard.lock().unwrap().as_slice());
}

#[test]
fn a_handler_may_drop_the_sink() {
    let below = Fickle::default();
    below.refuses.store(true, Ordering::Relaxed);
    let shared = Arc::new(Mutex::new(None));
    let dropped = Arc::clone(&shared);
    let builder = AggregatingMetricSinkBuilder::new().with_flush_period(Duration::from_millis(1));
    let handler = move |_| drop(dropped.lock().unwrap().take());
    let sink = builder.with_error_handler(handler).build(below.clone()).unwrap();
    sink.emit("a:1|c").unwrap();
    *shared.lock().unwrap() = Some(sink);
    until(|| shared.lock().unwrap().is_none());
    // The thread still has what the sink holds, and drops it at its end.
    until(|| Arc::strong_count(&below.lines) == 1);
    assert!(below.lines.lock().unwrap().is_empty());
}

/// Refuses each third line, and stores the others.
#[derive(Clone, Default)]
struct Narrow {
    calls: Arc<AtomicUsize>,
    lines: Arc<Mutex<Vec<String>>>,
}

impl MetricSink for Narrow {
    fn emit(&self, metric: &str) -> io::Result<usize> {
        if self.calls.fetch_add(1, Ordering::Relaxed) % 3 == 2 {
            return Err(io::ErrorKind::WouldBlock.into());
        }
        self.lines.lock().unwrap().push(metric.to_string());
        Ok(metric.len())
    }
}

#[test]
fn the_drop_tries_again_as_long_as_it_passes_a_line_on() {
    let below = Narrow::default();
    let sink = AggregatingMetricSink::from(below.clone()).unwrap();
    let lines: Vec<String> = (0..100).map(|n| format!("a{n}:1|c")).collect();
    lines.iter().for_each(|line| assert!(sink.emit(line).is_ok()));
    drop(sink);
    assert_eq!(lines, *below.lines.lock().unwrap());
}

#[test]
fn a_call_by_a_key_adds_what_its_line_says() {
    let below = Fickle::default();
    let sink = AggregatingMetricSinkBuilder::new().with_max_line(9).build(below.clone()).unwrap();
    let other = AggregatingMetricSink::from(below.clone()).unwrap();
    let hits = sink.key("hits:7|c|#k:v").unwrap();
    let load = sink.key("load:0.5|g").unwrap();
    let queries = sink.key("queries:1|c").unwrap();
    for line in ["u:1|s", "t:1|ms", "a:0.5|c", "a:1|c|T7", "no line"] {
        assert_eq!(io::ErrorKind::InvalidInput, sink.key(line).unwrap_err().kind(), "{line}");
    }
    for (key, number) in [(hits, 5), (load, 7), (queries, i64::MAX), (queries, 1), (load, 8)] {
        sink.add(key, number).unwrap();
    }
    assert_eq!(io::ErrorKind::InvalidInput, sink.add(load, -1).unwrap_err().kind());
    assert_eq!(io::ErrorKind::InvalidInput, other.add(load, 1).unwrap_err().kind());
    below.refuses.store(true, Ordering::Relaxed);
    sink.add(hits, -6).unwrap();
    assert_eq!(io::ErrorKind::ConnectionRefused, sink.flush().unwrap_err().kind());
    below.refuses.store(false, Ordering::Relaxed);
    sink.flush().unwrap();
    let expected = ["hits:5|c|#k:v", "queries:9223372036854775807|c", "hits:-6|c|#k:v", "queries:1|c", "load:8|g"];
    assert_eq!(expected, below.lines.lock().unwrap().as_slice());
}

#[test]
fn calls_fail_while_too_many_lines_wait() {
    let below = Fickle::default();
    let sink = AggregatingMetricSinkBuilder::new().with_max_contexts(1).build(below.clone()).unwrap();
    below.refuses.store(true, Ordering::Relaxed);
    let refused = (0..20).filter(|n| sink.emit(&format!("a{n}:1|c")).is_err()).count();
    assert!((1..20).contains(&refused), "{refused}");
    below.refuses.store(false, Ordering::Relaxed);
    sink.flush().unwrap();
    assert_eq!(20 - refused, below.lines.lock().unwrap().len());
}

/// Counts its lines over the sink above it, and sets that sink's gauge.
#[derive(Clone, Default)]
struct Counting {
    above: Arc<OnceLock<Weak<AggregatingMetricSink<Counting>>>>,
    lines: Arc<Mutex<Vec<String>>>,
}

impl MetricSink for Counting {
    fn emit(&self, metric: &str) -> io::Result<usize> {
        self.lines.lock().unwrap().push(metric.to_string());
        let above = self.above.get().and_then(Weak::upgrade);
        if let (Some(above), false) = (above, metric.starts_with("own")) {
            above.emit("own:1|c")?;
            above.emit("own:1|ms")?;
            above.flush()?;
            assert_eq!(0, above.stats().packets_sent);
        }
        Ok(metric.len())
    }
}

#[test]
fn the_other_sink_may_call_this_one() {
    let below = Counting::default();
    let sink = Arc::new(AggregatingMetricSink::from(below.clone()).unwrap());
    below.above.set(Arc::downgrade(&sink)).unwrap();
    sink.emit("a:1|c").unwrap();
    sink.emit("t:1|ms").unwrap();
    // The flush inside the other sink passes on what was held.
    let expected = ["t:1|ms", "own:1|ms", "a:1|c", "own:1|c", "own:1|ms", "own:1|c"];
    assert_eq!(expected, below.lines.lock().unwrap().as_slice());
    sink.flush().unwrap();
    drop(sink);
    assert_eq!(expected, below.lines.lock().unwrap().as_slice());
}

/// Panics for some lines, and stores the others.
#[derive(Clone, Default)]
struct Panicking(Arc<Mutex<Vec<String>>>);

impl MetricSink for Panicking {
    fn emit(&self, metric: &str) -> io::Result<usize> {
        assert!(!metric.starts_with("bad"), "this sink is meant to panic");
        self.0.lock().unwrap().push(metric.to_string());
        Ok(metric.len())
    }

    fn flush(&self) -> io::Result<()> {
        panic!("this flush is meant to panic");
    }
}

#[test]
fn a_panic_of_the_other_sink_loses_one_line() {
    let below = Panicking::default();
    let sink = AggregatingMetricSink::from(below.clone()).unwrap();
    for line in ["bad1:1|c", "a:1|c", "bad2:1|c", "b:1|c"] {
        sink.emit(line).unwrap();
    }
    let panics = |call: &dyn Fn()| catch_unwind(AssertUnwindSafe(call)).is_err();
    // At the two bad lines, and then in the flush of the other sink.
    for passed in [0, 1, 2] {
        assert!(panics(&|| drop(sink.flush())));
        assert_eq!(passed, below.0.lock().unwrap().len());
    }
    assert!(panics(&|| drop(sink.emit("bad3:1|ms"))));
    sink.emit("t:1|ms").unwrap();
    sink.emit("bad5:1|c").unwrap();
    sink.emit("c:1|c").unwrap();
    let key = sink.key("d:0|c").unwrap();
    sink.add(key, 2).unwrap();
    drop(sink);
    let mut lines = below.0.lock().unwrap().clone();
    lines.sort();
    assert_eq!(["a:1|c", "b:1|c", "c:1|c", "d:2|c", "t:1|ms"], lines.as_slice());
}

#[test]
fn a_panic_ends_with_the_drop_of_the_sink() {
    let result = catch_unwind(|| {
        let sink = AggregatingMetricSink::from(Panicking::default()).unwrap();
        sink.emit("bad:1|c").unwrap();
        panic!("this test is meant to panic");
    });
    assert!(result.is_err());
}

#[test]
fn lines_of_threads_come_in_order() {
    let below = Fickle::default();
    let sink = AggregatingMetricSink::from(below.clone()).unwrap();
    thread::scope(|scope| {
        for thread in 0..4 {
            let sink = &sink;
            scope.spawn(move || (0..1_000).for_each(|n| assert!(sink.emit(&format!("t{thread}:{n}|ms")).is_ok())));
        }
    });
    let lines = below.lines.lock().unwrap();
    for thread in 0..4 {
        let of_thread = lines.iter().filter(|line| line.starts_with(&format!("t{thread}:")));
        assert!(of_thread.eq((0..1_000).map(|n| format!("t{thread}:{n}|ms")).collect::<Vec<_>>().iter()));
    }
}

#[test]
fn threads_share_a_sink() {
    let (receiver, spy) = SpyMetricSink::new();
    let sink = AggregatingMetricSink::from(spy).unwrap();
    thread::scope(|scope| {
        for _ in 0..4 {
            scope.spawn(|| (0..1_000).for_each(|_| assert_eq!(5, sink.emit("a:1|c").unwrap())));
        }
    });
    sink.flush().unwrap();
    assert_eq!(["a:4000|c"], received(&receiver).as_slice());
}
