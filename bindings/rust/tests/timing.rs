// SPDX-License-Identifier: MIT OR Apache-2.0
//! The timer of a scope.
use cadence::{SpyMetricSink, StatsdClient};
use std::io;
use std::sync::atomic::{AtomicU64, Ordering};
use std::sync::Arc;
use std::thread;
use std::time::Duration;

/// Returns the milliseconds of a timer's line.
fn millis(line: &str, prefix: &str, end: &str) -> u64 {
    line.strip_prefix(prefix).and_then(|rest| rest.strip_suffix(end)).unwrap().parse().unwrap()
}

#[test]
fn a_drop_and_a_stop_send_one_line_each() {
    let (receiver, sink) = SpyMetricSink::new();
    let client = StatsdClient::from_sink("p", sink);
    {
        let _timer = client.timer("a").with_tag("k", "v").with_tag_value("w");
        thread::sleep(Duration::from_millis(20));
    }
    let line = String::from_utf8(receiver.try_recv().unwrap()).unwrap();
    assert!((20..10_000).contains(&millis(&line, "p.a:", "|ms|#k:v,w")));
    let metric = client.timer("b").stop().unwrap();
    let line = String::from_utf8(receiver.try_recv().unwrap()).unwrap();
    assert_eq!(cadence::Metric::as_metric_str(&metric), line);
    assert!(millis(&line, "p.b:", "|ms") < 10_000);
    assert!(receiver.is_empty());
}

#[test]
fn a_time_that_cannot_be_sent_goes_to_the_handler() {
    struct Refuses;
    impl cadence::MetricSink for Refuses {
        fn emit(&self, _: &str) -> io::Result<usize> {
            Err(io::Error::other("refused"))
        }
    }
    let errors = Arc::new(AtomicU64::new(0));
    let counted = Arc::clone(&errors);
    let handler = move |_| {
        counted.fetch_add(1, Ordering::SeqCst);
    };
    let client = StatsdClient::builder("p", Refuses).with_error_handler(handler).build();
    drop(client.timer("a"));
    assert!(client.timer("b").stop().is_err());
    assert_eq!(1, errors.load(Ordering::SeqCst));
}

#[test]
fn a_panic_in_the_scope_is_timed_too() {
    let (receiver, sink) = SpyMetricSink::new();
    let client = StatsdClient::from_sink("p", sink);
    let result = std::panic::catch_unwind(|| {
        let _timer = client.timer("a");
        panic!("in the scope");
    });
    assert!(result.is_err() && receiver.recv().unwrap().starts_with(b"p.a:"));
}
