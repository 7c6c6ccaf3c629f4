// SPDX-License-Identifier: MIT OR Apache-2.0
//! Values, metrics and sinks of a caller's own, and the error handler.
use cadence::ext::{MetricBackend, MetricValue, SocketStats, ToCounterValue, ToGaugeValue};
use cadence::prelude::*;
use cadence::{
    ErrorKind, Metric, MetricError, MetricResult, MetricSink, NopMetricSink, SinkStats, SpyMetricSink, StatsdClient,
};
use std::error::Error;
use std::io;
use std::sync::atomic::{AtomicUsize, Ordering};
use std::sync::{Arc, Mutex};

struct Calls(Vec<i64>);

impl ToCounterValue for Calls {
    fn try_to_value(self) -> MetricResult<MetricValue> {
        Ok(MetricValue::PackedSigned(self.0))
    }
}

struct Unknown;

impl ToGaugeValue for Unknown {
    fn try_to_value(self) -> MetricResult<MetricValue> {
        Ok(MetricValue::Float(f64::NAN))
    }
}

struct Event(String);

impl Metric for Event {
    fn as_metric_str(&self) -> &str {
        &self.0
    }
}

struct Broken;

impl MetricSink for Broken {
    fn emit(&self, _metric: &str) -> io::Result<usize> {
        Err(io::Error::new(io::ErrorKind::TimedOut, "no answer"))
    }

    fn flush(&self) -> io::Result<()> {
        Err(io::Error::new(io::ErrorKind::BrokenPipe, "gone"))
    }
}

#[test]
fn values_of_ones_own_are_taken() {
    let client = StatsdClient::from_sink("p", NopMetricSink);
    assert_eq!("p.k:-1:2|c", client.count("k", Calls(vec![-1, 2])).unwrap().as_metric_str());
    assert_eq!(ErrorKind::InvalidInput, client.gauge("k", Unknown).unwrap_err().kind());
}

#[test]
fn metrics_of_ones_own_are_sent_as_they_stand() {
    let (receiver, sink) = SpyMetricSink::new();
    let client = StatsdClient::builder("p", sink).with_tag("a", "b").build();
    client.send_metric(&Event("deployed:1|e".to_string())).unwrap();
    assert_eq!(b"deployed:1|e".to_vec(), receiver.recv().unwrap());
}

#[test]
fn send_tells_the_handler_and_the_other_calls_answer() {
    let texts = Arc::new(Mutex::new(Vec::new()));
    let told = Arc::clone(&texts);
    let client =
        StatsdClient::builder("p", Broken).with_error_handler(move |e| told.lock().unwrap().push(e.to_string())).build();
    client.count_with_tags("k", 1).with_tag("a", "b").send();
    client.gauge_with_tags("k", f64::NAN).send();
    client.consume_error(MetricError::from((ErrorKind::InvalidInput, "mine")));
    assert_eq!(vec!["no answer", "a float is NaN, infinite or too large", "mine"], *texts.lock().unwrap());
    assert_eq!(ErrorKind::IoError, client.incr("k").unwrap_err().kind());
    assert_eq!("gone", client.flush().unwrap_err().to_string());
    assert_eq!(3, texts.lock().unwrap().len());
}

#[test]
fn an_error_has_its_source() {
    let error = StatsdClient::from_sink("p", Broken).incr("k").unwrap_err();
    let source = error.source().unwrap().downcast_ref::<io::Error>().unwrap();
    assert_eq!(io::ErrorKind::TimedOut, source.kind());
    assert_eq!("no answer", error.to_string());
    let error = MetricError::from((ErrorKind::InvalidInput, "nope"));
    assert!(error.source().is_none());
    assert_eq!("nope", error.to_string());
    assert_eq!(ErrorKind::InvalidInput, error.kind());
}

#[test]
#[allow(deprecated)]
fn an_error_answers_the_deprecated_calls() {
    let error = MetricError::from(io::Error::from(io::ErrorKind::TimedOut));
    assert_eq!("timed out", error.cause().unwrap().to_string());
    assert_eq!("nope", MetricError::from((ErrorKind::InvalidInput, "nope")).description());
}

struct Counting {
    calls: Arc<AtomicUsize>,
    stats: SocketStats,
}

impl MetricSink for Counting {
    fn emit(&self, metric: &str) -> io::Result<usize> {
        let nth = self.calls.fetch_add(1, Ordering::SeqCst);
        self.stats.update(if nth == 0 { Err(io::Error::other("first")) } else { Ok(metric.len()) }, metric.len())
    }

    fn stats(&self) -> SinkStats {
        (&self.stats).into()
    }
}

#[test]
fn counts_are_added_up_and_shared_by_clones() {
    let (calls, stats) = (Arc::new(AtomicUsize::new(0)), SocketStats::default());
    let client = StatsdClient::from_sink("p", Counting { calls: Arc::clone(&calls), stats: stats.clone() });
    assert_eq!(0, calls.load(Ordering::SeqCst));
    client.incr("k").unwrap_err();
    client.incr("kk").unwrap();
    stats.incr_bytes_sent(100);
    stats.incr_packets_sent();
    stats.incr_bytes_dropped(200);
    stats.incr_packets_dropped();
    let seen = SinkStats::from(&stats);
    assert_eq!((108, 2), (seen.bytes_sent, seen.packets_sent));
    assert_eq!((207, 2), (seen.bytes_dropped, seen.packets_dropped));
}

#[test]
fn a_sink_that_only_emits_has_the_other_calls() {
    struct Plain;
    impl MetricSink for Plain {
        fn emit(&self, metric: &str) -> io::Result<usize> {
            Ok(metric.len())
        }
    }
    assert!(Plain.flush().is_ok());
    assert_eq!(0, Plain.stats().packets_sent);
    assert_eq!(0, NopMetricSink.emit("k:1|c").unwrap());
}
