// SPDX-License-Identifier: MIT OR Apache-2.0
//! Clients with strict texts.
use cadence::ext::MetricBackend;
use cadence::prelude::*;
use cadence::{Counter, ErrorKind, Metric, MetricError, MetricResult, MetricSink, StatsdClient, StatsdClientBuilder};
use std::io;
use std::sync::{Arc, Mutex};

/// Texts that no place of a call may have.
const HOSTILE: [&str; 7] = [",", "|", "\n", "a:1|c", "a,b:c", "a\nb:1|c", "é|"];
/// Texts that may follow the key of a tag, and may stand nowhere else.
const COLONS: [&str; 4] = [":", "http://x", "nginx:1.25", "::1"];

/// A sink that stores its lines.
#[derive(Clone, Default)]
struct Lines(Arc<Mutex<Vec<String>>>);

impl MetricSink for Lines {
    fn emit(&self, line: &str) -> io::Result<usize> {
        self.0.lock().unwrap().push(line.to_string());
        Ok(line.len())
    }
}

fn strict(lines: &Lines) -> StatsdClientBuilder {
    StatsdClient::builder("p", lines.clone()).with_strict_texts()
}

#[track_caller]
fn assert_refused<T: std::fmt::Debug>(result: MetricResult<T>) {
    let error = result.unwrap_err();
    assert_eq!(ErrorKind::InvalidInput, error.kind());
    assert_eq!("separator in a text", error.to_string());
}

#[test]
fn a_call_with_a_separator_is_refused() {
    let lines = Lines::default();
    let c = strict(&lines).with_tag("env", "prod").with_tag_value("beta").with_container_id("box").build();
    for text in HOSTILE.into_iter().chain(COLONS) {
        assert_refused(c.incr(text));
        assert_refused(c.time(text, vec![1u64, 2]));
        assert_refused(c.gauge(text, 0.5));
        assert_refused(c.incr_with_tags("k").with_tag(text, "v").try_send());
        assert_refused(c.incr_with_tags("k").with_tag_value(text).with_tag("a", "b").try_send());
        assert_refused(c.histogram_with_tags("k", 1.5).with_container_id(text).try_send());
    }
    for text in HOSTILE {
        assert_refused(c.incr_with_tags("k").with_tag("a", "b").with_tag("k", text).try_send());
    }
    assert!(lines.0.lock().unwrap().is_empty());
}

#[test]
fn a_call_without_a_separator_is_sent_as_before() {
    let lines = Lines::default();
    let c = strict(&lines).with_tag("env", "prod").with_container_id("box").build();
    let metric = c.count_with_tags("é;#@", 3).with_tag("a b", "").with_tag_value("x").with_sampling_rate(0.5).with_timestamp(9);
    assert_eq!("p.é;#@:3|c|@0.5|#env:prod,a b:,x|c:box|T9", metric.try_send().unwrap().as_metric_str());
    assert_eq!(1, lines.0.lock().unwrap().len());
}

#[test]
fn the_first_colon_of_a_tag_ends_its_key() {
    for text in COLONS {
        let lines = Lines::default();
        let c = strict(&lines).with_tag("default", text).build();
        c.incr_with_tags("k").with_tag("own", text).with_tag_value("x").try_send().unwrap();
        assert_eq!([format!("p.k:1|c|#default:{text},own:{text},x")], lines.0.lock().unwrap()[..]);
    }
}

/// Asserts that clients which these builders make refuse each call.
#[track_caller]
fn assert_unusable(lines: &Lines, builders: &[&dyn Fn() -> StatsdClientBuilder]) {
    for builder in builders {
        assert_refused(builder().try_build());
        assert_refused(builder().build().incr("k"));
        assert_refused(builder().build().incr_with_tags("k").with_container_id("box").try_send());
    }
    assert!(lines.0.lock().unwrap().is_empty());
}

#[test]
fn a_client_that_has_a_separator_itself_refuses_each_call() {
    let lines = Lines::default();
    for text in HOSTILE.into_iter().chain(COLONS) {
        assert_unusable(
            &lines,
            &[
                &|| StatsdClient::builder(text, lines.clone()).with_strict_texts(),
                &|| strict(&lines).with_tag(text, "v"),
                &|| strict(&lines).with_tag_value(text),
                &|| strict(&lines).with_container_id(text),
            ],
        );
    }
    for text in HOSTILE {
        assert_unusable(
            &lines,
            &[&|| strict(&lines).with_tag("k", text), &|| {
                StatsdClient::builder("p", lines.clone()).with_tag("k", text).with_strict_texts()
            }],
        );
    }
    assert!(strict(&Lines::default()).with_tag("k", "v").try_build().is_ok());
}

#[test]
fn a_client_that_is_not_strict_prints_separators() {
    let builder = StatsdClient::builder("p:", Lines::default()).with_tag("a,", "b|").with_container_id("\n");
    assert_eq!("p:.k:1:1|c|#a,:b|,x:y|c:\n", {
        let client = builder.try_build().unwrap();
        client.incr_with_tags("k:1").with_tag_value("x:y").try_send().unwrap().as_metric_str().to_string()
    });
}

#[test]
fn a_value_that_does_not_fit_is_refused_first() {
    let c = strict(&Lines::default()).build();
    for error in [
        c.gauge("a|b", f64::NAN).map(drop),
        c.time("a|b", std::time::Duration::MAX).map(drop),
        c.count_with_tags("k", 1).with_tag_value("a|b").with_sampling_rate(f64::INFINITY).try_send().map(drop),
    ] {
        assert_ne!("separator in a text", error.unwrap_err().to_string());
    }
}

#[test]
fn a_metric_of_ones_own_and_the_error_handler() {
    let (lines, errors) = (Lines::default(), Arc::new(Mutex::new(Vec::new())));
    let handler = Arc::clone(&errors);
    let c = strict(&lines).with_error_handler(move |e: MetricError| handler.lock().unwrap().push(e.to_string())).build();
    c.incr_with_tags("k").with_tag_value("a,b").send();
    assert_eq!(["separator in a text"], errors.lock().unwrap()[..]);
    c.send_metric(&Counter::from("own:1|c".to_string())).unwrap();
    assert_eq!(["own:1|c"], lines.0.lock().unwrap()[..]);
}
