// SPDX-License-Identifier: MIT OR Apache-2.0
//! The lines of members of sets, of changes of gauges, of gauges that may be below 0, and of calls with separators in their
//! texts, by the rows of `values.rows`, and calls that are sampled.
use cadence::ext::ToLevelValue;
use cadence::prelude::*;
use cadence::{
    AggregatingMetricSink, BufferedSpyMetricSink, ErrorKind, Metric, MetricResult, NopMetricSink, SpyMetricSink, StatsdClient,
    StatsdClientBuilder,
};

fn builder() -> StatsdClientBuilder {
    StatsdClient::builder("p", NopMetricSink).with_tag("env", "prod")
}

fn client() -> StatsdClient {
    builder().build()
}

fn line(metric: MetricResult<impl Metric>) -> Result<String, ErrorKind> {
    metric.map(|metric| metric.as_metric_str().to_string()).map_err(|error| error.kind())
}

/// Makes a call with a number.
fn numbered<T: ToLevelValue>(client: &StatsdClient, call: &str, key: &str, number: T) -> Result<String, ErrorKind> {
    if call == "change" {
        line(client.change(key, number))
    } else {
        line(client.level(key, number))
    }
}

/// Makes the call of a row.
fn made(call: &str) -> Result<String, ErrorKind> {
    let (client, call) = match call.split_once(' ').unwrap() {
        ("strict", call) => (builder().with_strict_texts().build(), call),
        ("clean", call) => (builder().with_cleaned_texts().build(), call),
        _ => (client(), call),
    };
    let (call, rest) = call.split_once(' ').unwrap();
    let (key, value) = rest.split_once(' ').unwrap_or((rest, ""));
    match (call, value.parse::<i64>(), value.parse::<u64>()) {
        ("member", ..) => line(client.set_text(key, value)),
        ("count", Ok(number), _) => line(client.count(key, number)),
        ("tag", ..) => line(client.incr_with_tags("visits").with_tag(key, value).try_send()),
        ("tag_value", ..) => line(client.incr_with_tags("visits").with_tag_value(rest).try_send()),
        ("container", ..) => line(client.incr_with_tags("visits").with_container_id(rest).try_send()),
        (call, Ok(number), _) => numbered(&client, call, key, number),
        (call, _, Ok(number)) => numbered(&client, call, key, number),
        _ => numbered(&client, call, key, value.parse::<f64>().unwrap()),
    }
}

/// Returns the rows. An archive has their file beside this crate, the repository where its own tests read it.
fn rows() -> String {
    let folder = env!("CARGO_MANIFEST_DIR");
    ["../values.rows", "../../crates/test_calls/data/values.rows"]
        .iter()
        .find_map(|place| std::fs::read_to_string(format!("{folder}/{place}")).ok())
        .unwrap()
}

#[test]
fn each_row_is_sent_or_refused() {
    let rows = rows();
    let mut seen = 0;
    for (wanted, call) in rows.lines().filter(|row| !row.starts_with('#')).filter_map(|row| row.split_once(" <- ")) {
        let wanted = if wanted == "refused" { Err(ErrorKind::InvalidInput) } else { Ok(wanted.replace("\\n", "\n")) };
        assert_eq!(wanted, made(&call.replace("\\n", "\n")), "{call}");
        seen += 1;
    }
    assert!(seen >= 70, "{seen} rows");
}

#[test]
fn options_are_in_each_line() {
    let client = client();
    let member = client.set_text_with_tags("s", "a").with_tag("k", "v").with_container_id("box").with_timestamp(9).try_send();
    assert_eq!(Ok("p.s:a|s|#env:prod,k:v|c:box|T9".to_string()), line(member));
    let change = client.change_with_tags("g", 1.5).with_tag_value("w").with_sampling_rate(0.5).try_send();
    assert_eq!(Ok("p.g:+1.5|g|@0.5|#env:prod,w".to_string()), line(change));
    let below = client.level_with_tags("g", -1).with_timestamp(9).try_send();
    assert_eq!(Ok("p.g:0|g|#env:prod|T9\np.g:-1|g|#env:prod|T9".to_string()), line(below));
}

#[test]
fn a_refused_member_says_why() {
    let error = client().set_text("s", "a|b").unwrap_err();
    assert_eq!("a member of a set is not empty, and has no colon, bar or newline", error.to_string());
}

#[test]
fn both_lines_of_a_gauge_below_zero_are_in_one_packet() {
    let (received, sink) = BufferedSpyMetricSink::with_capacity(None, Some(20));
    let client = StatsdClient::from_sink("", sink);
    client.incr("a.name").unwrap();
    client.level("g", -5).unwrap();
    client.flush().unwrap();
    let packets: Vec<String> = received.try_iter().map(|packet| String::from_utf8(packet).unwrap()).collect();
    assert_eq!(vec!["a.name:1|c\n", "g:0|g\ng:-5|g\n"], packets);
}

#[test]
fn a_sampled_call_is_sent_with_its_chance() {
    let (received, sink) = SpyMetricSink::new();
    let client = StatsdClient::from_sink("", sink);
    let mut sent = 0;
    for _ in 0..10_000 {
        let counter = client.count_with_tags("n", 2).with_sampling(0.1).try_send().unwrap();
        sent += usize::from(!counter.as_metric_str().is_empty());
    }
    let lines: Vec<Vec<u8>> = received.try_iter().collect();
    assert_eq!(sent, lines.len());
    assert!((800..1200).contains(&sent), "{sent}");
    assert!(lines.iter().all(|line| line == b"n:2|c|@0.1"));
}

#[test]
fn a_rate_of_one_is_always_sent_and_others_are_refused() {
    let client = client();
    for _ in 0..100 {
        assert_eq!(Ok("p.n:1|c|#env:prod".to_string()), line(client.incr_with_tags("n").with_sampling(1.0).try_send()));
    }
    for rate in [0.0, -0.5, 1.5, f64::NAN, f64::INFINITY] {
        let refused = client.incr_with_tags("n").with_sampling(rate).try_send().unwrap_err();
        assert_eq!(ErrorKind::InvalidInput, refused.kind());
        assert_eq!("a sampling rate is above 0 and at most 1", refused.to_string());
    }
}

#[test]
fn sums_hand_a_gauge_below_zero_on_after_the_gauges_that_they_hold() {
    let (received, sink) = SpyMetricSink::new();
    let client = StatsdClient::from_sink("", AggregatingMetricSink::from(sink).unwrap());
    client.gauge("g", 5u64).unwrap();
    client.level("g", -5).unwrap();
    client.set_text("s", "alice").unwrap();
    client.set_text("s", "alice").unwrap();
    client.flush().unwrap();
    let lines: Vec<String> = received.try_iter().map(|line| String::from_utf8(line).unwrap()).collect();
    assert_eq!(vec!["g:5|g", "g:0|g\ng:-5|g", "s:alice|s"], lines);
}
