// SPDX-License-Identifier: MIT OR Apache-2.0
//! Clients that clean texts.
use cadence::ext::MetricBackend;
use cadence::prelude::*;
use cadence::{Counter, Metric, MetricResult, NopMetricSink, SpyMetricSink, StatsdClient, StatsdClientBuilder};

fn cleaned(prefix: &str) -> StatsdClientBuilder {
    StatsdClient::builder(prefix, NopMetricSink).with_cleaned_texts()
}

fn line(metric: MetricResult<impl Metric>) -> String {
    metric.unwrap().as_metric_str().to_string()
}

#[test]
fn each_separator_of_a_call_is_an_underscore() {
    let c = cleaned("p").build();
    assert_eq!("p.a_1_c_b_c:1|c", line(c.incr("a:1|c\nb,c")));
    assert_eq!("p.a_b:1:2|ms", line(c.time("a:b", vec![1u64, 2])));
    assert_eq!("p.a_b:0.5|g", line(c.gauge("a|b", 0.5)));
    let call = c.count_with_tags("é|", 3).with_tag("k:", "v:w,x|y").with_tag_value("a:b\n").with_container_id("c:d");
    assert_eq!("p.é_:3|c|@0.5|#k_:v:w_x_y,a_b_|c:c_d|T9", line(call.with_sampling_rate(0.5).with_timestamp(9).try_send()));
}

#[test]
fn texts_of_the_client_itself_are_cleaned() {
    let builder = cleaned("a:b|c.").with_tag("k,", "v:w\n").with_tag_value("x:y").with_container_id("c|d");
    let c = builder.try_build().unwrap();
    assert_eq!("a_b_c.n:1|c|#k_:v:w_,x_y|c:c_d", line(c.incr("n")));
    assert_eq!("a_b_c.n:1|c|#k_:v:w_,x_y|c:e_f", line(c.incr_with_tags("n").with_container_id("e:f").try_send()));
}

#[test]
fn texts_without_a_separator_stay() {
    let c = cleaned("p").with_tag("env", "prod").with_container_id("box").build();
    let call = c.incr_with_tags("é;#@").with_tag("a b", "").with_tag("url", "http://x").with_tag_value("");
    assert_eq!("p.é;#@:1|c|#env:prod,a b:,url:http://x,|c:box", line(call.try_send()));
}

#[test]
fn members_and_lines_of_ones_own_are_not_cleaned() {
    let (received, sink) = SpyMetricSink::new();
    let c = StatsdClient::builder("", sink).with_cleaned_texts().with_tag("k:", "v").build();
    assert!(c.set_text("s", "a:b").is_err());
    c.event("a:b", "c").with_hostname("a|b").with_tag_value("a:b").try_send().unwrap();
    c.send_metric(&Counter::from("own:1|c|#a,b".to_string())).unwrap();
    let lines: Vec<String> = received.try_iter().map(|line| String::from_utf8(line).unwrap()).collect();
    assert_eq!(vec!["_e{3,1}:a:b|c|h:a_b|#k_:v,a_b", "own:1|c|#a,b"], lines);
}

#[test]
fn the_last_of_both_calls_counts() {
    assert!(cleaned("p").with_strict_texts().build().incr("a:b").is_err());
    let c = StatsdClient::builder("p", NopMetricSink).with_strict_texts().with_cleaned_texts().build();
    assert_eq!("p.a_b:1|c", line(c.incr("a:b")));
}

#[test]
fn values_are_refused_as_before() {
    let c = cleaned("p").build();
    assert!(c.gauge("a|b", f64::NAN).is_err());
    assert!(c.time("a|b", std::time::Duration::MAX).is_err());
}
