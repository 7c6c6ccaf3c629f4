// SPDX-License-Identifier: MIT OR Apache-2.0
//! The lines of events and of service checks, by the rows of `events.rows`.
use cadence::prelude::*;
use cadence::{
    AggregatingMetricSink, AlertType, BufferedSpyMetricSink, ErrorKind, Metric, MetricError, MetricResult, NopMetricSink,
    Priority, QueuingMetricSink, ServiceStatus, SpyMetricSink, StatsdClient,
};
use std::sync::mpsc;
use std::time::Duration;

/// Returns the text of a value in a row.
fn text(escaped: &str) -> String {
    let mut bytes = Vec::new();
    let mut rest = escaped;
    while let Some((plain, escape)) = rest.split_once('\\') {
        bytes.extend(plain.bytes());
        let size = if escape.starts_with('n') { 1 } else { 3 };
        bytes.push(if size == 1 { b'\n' } else { u8::from_str_radix(&escape[1..3], 16).unwrap() });
        rest = &escape[size..];
    }
    bytes.extend(rest.bytes());
    String::from_utf8(bytes).unwrap()
}

/// The fields of a row.
struct Fields(Vec<(String, String)>);

impl Fields {
    fn of(row: &str) -> Fields {
        let pairs = row.split(" & ").skip(1).map(|pair| pair.split_once('=').unwrap());
        Fields(pairs.map(|(name, value)| (name.to_string(), text(value))).collect())
    }

    fn all<'a>(&'a self, name: &'a str) -> impl Iterator<Item = &'a str> {
        self.0.iter().filter(move |field| field.0 == name).map(|field| field.1.as_str())
    }

    fn get(&self, name: &str) -> Option<&str> {
        self.0.iter().find(|field| field.0 == name).map(|field| field.1.as_str())
    }

    /// Returns the tags of this name: pairs of a key and a value, or a value alone.
    fn tags<'a>(&'a self, name: &'a str) -> impl Iterator<Item = (Option<&'a str>, &'a str)> {
        self.all(name).map(|tag| tag.split_once('=').map_or((None, tag), |(key, value)| (Some(key), value)))
    }

    fn client(&self) -> StatsdClient {
        let mut builder = StatsdClient::builder("no.prefix", NopMetricSink);
        if self.get("cleaned").is_some() {
            builder = builder.with_cleaned_texts();
        }
        for (key, value) in self.tags("default_tag") {
            builder = match key {
                Some(key) => builder.with_tag(key, value),
                None => builder.with_tag_value(value),
            };
        }
        match self.get("default_container") {
            Some(container) => builder.with_container_id(container).build(),
            None => builder.build(),
        }
    }
}

/// Sets the fields that events and service checks share, and returns the line.
macro_rules! sent {
    ($builder:expr, $fields:expr) => {{
        let mut builder = $builder;
        for (key, value) in $fields.tags("tag") {
            builder = match key {
                Some(key) => builder.with_tag(key, value),
                None => builder.with_tag_value(value),
            };
        }
        if let Some(time) = $fields.get("time") {
            builder = builder.with_timestamp(time.parse().unwrap());
        }
        if let Some(host) = $fields.get("host") {
            builder = builder.with_hostname(host);
        }
        if let Some(container) = $fields.get("container") {
            builder = builder.with_container_id(container);
        }
        builder.try_send().map(|line| line.as_metric_str().to_string())
    }};
}

fn event(fields: &Fields) -> MetricResult<String> {
    let client = fields.client();
    let mut event = client.event(fields.get("title").unwrap(), fields.get("text").unwrap());
    if let Some(key) = fields.get("key") {
        event = event.with_aggregation_key(key);
    }
    if let Some(source) = fields.get("source") {
        event = event.with_source_type(source);
    }
    for (text, priority) in [("low", Priority::Low), ("normal", Priority::Normal)] {
        if fields.get("priority") == Some(text) {
            event = event.with_priority(priority);
        }
    }
    let alerts = [AlertType::Error, AlertType::Warning, AlertType::Info, AlertType::Success];
    for (text, alert) in ["error", "warning", "info", "success"].into_iter().zip(alerts) {
        if fields.get("alert") == Some(text) {
            event = event.with_alert_type(alert);
        }
    }
    sent!(event, fields)
}

fn check(fields: &Fields) -> MetricResult<String> {
    let status = match fields.get("status").unwrap() {
        "ok" => ServiceStatus::Ok,
        "warning" => ServiceStatus::Warning,
        "critical" => ServiceStatus::Critical,
        _ => ServiceStatus::Unknown,
    };
    let client = fields.client();
    let mut check = client.service_check(fields.get("name").unwrap(), status);
    if let Some(message) = fields.get("message") {
        check = check.with_message(message);
    }
    sent!(check, fields)
}

/// Returns the text of the error for a row that `refuses` a text.
fn refusal(what: &str) -> &'static str {
    match what {
        "name" => "separator in the name of a service check",
        "host" => "separator in the host",
        "key" => "separator in the aggregation key",
        "source" => "separator in the source type",
        "tag" => "separator in a tag",
        "container" => "separator in the container",
        _ => "bar in the message of a service check",
    }
}

/// Returns the rows. An archive has their file beside this crate, the repository where its own tests read it.
fn rows() -> String {
    let folder = env!("CARGO_MANIFEST_DIR");
    ["../events.rows", "../../crates/test_calls/data/events.rows"]
        .iter()
        .find_map(|place| std::fs::read_to_string(format!("{folder}/{place}")).ok())
        .unwrap()
}

#[test]
fn each_row_is_sent_or_refused() {
    let rows = rows();
    let mut seen = 0;
    for (wanted, call) in rows.lines().filter(|row| !row.starts_with('#')).filter_map(|row| row.split_once(" <- ")) {
        let fields = Fields::of(call);
        let line = if call.starts_with("event") { event(&fields) } else { check(&fields) };
        match (line, wanted.strip_prefix("refuses ")) {
            (Ok(line), None) => assert_eq!(text(wanted), line, "{call}"),
            (Err(error), Some(what)) => {
                assert_eq!(ErrorKind::InvalidInput, error.kind(), "{call}");
                assert_eq!(refusal(what), error.to_string(), "{call}");
            }
            (found, _) => panic!("{call}: {found:?}"),
        }
        seen += 1;
    }
    assert!(seen > 80, "{seen} rows");
}

#[test]
fn the_handler_gets_the_error_and_the_sink_nothing() {
    let (errors, seen) = mpsc::channel::<MetricError>();
    let errors = std::sync::Mutex::new(errors);
    let (receiver, sink) = SpyMetricSink::new();
    let client = StatsdClient::builder("p", sink).with_error_handler(move |e| errors.lock().unwrap().send(e).unwrap()).build();
    client.event("a", "b").with_hostname("a|b").send();
    client.service_check("a:b", ServiceStatus::Ok).send();
    client.event("a", "b").with_tag("env", "prod").send();
    assert_eq!("separator in the host", seen.recv().unwrap().to_string());
    assert_eq!("separator in the name of a service check", seen.recv().unwrap().to_string());
    assert_eq!(b"_e{1,1}:a|b|#env:prod".to_vec(), receiver.recv().unwrap());
    assert!(seen.try_recv().is_err());
}

#[test]
fn a_client_whose_settings_are_refused_sends_none() {
    let client = StatsdClient::builder("p", NopMetricSink).with_strict_texts().with_tag("a", "b,c").build();
    assert_eq!("separator in a text", client.event("a", "b").try_send().unwrap_err().to_string());
    assert_eq!("separator in a text", client.service_check("a", ServiceStatus::Ok).try_send().unwrap_err().to_string());
}

/// A line that a reader of metrics would take for a counter if it didn't know events.
#[test]
fn packers_queues_and_sums_pass_lines_on() {
    let (receiver, spy) = BufferedSpyMetricSink::new();
    let client = StatsdClient::from_sink("p", QueuingMetricSink::from(AggregatingMetricSink::from(spy).unwrap()));
    for _ in 0..2 {
        client.count("visits", 3).unwrap();
        client.event("1", "c").try_send().unwrap();
        client.service_check("web", ServiceStatus::Ok).with_tag("a", "1").with_container_id("c").try_send().unwrap();
    }
    client.close(Duration::from_secs(20)).unwrap();
    let mut lines = String::new();
    while let Ok(packet) = receiver.try_recv() {
        lines += std::str::from_utf8(&packet).unwrap();
    }
    let mut lines: Vec<&str> = lines.lines().collect();
    lines.sort_unstable();
    assert_eq!(["_e{1,1}:1|c", "_e{1,1}:1|c", "_sc|web|0|#a:1|c:c", "_sc|web|0|#a:1|c:c", "p.visits:6|c"], lines[..]);
}

#[test]
fn builders_and_lines_can_be_printed() {
    let client = StatsdClient::from_sink("p", NopMetricSink);
    let event = client.event("a", "b").with_tag("k", "v");
    assert_eq!("EventBuilder { tags: [(Some(\"k\"), \"v\")], .. }", format!("{event:?}"));
    assert_eq!("Event(\"_e{1,1}:a|b|#k:v\")", format!("{:?}", event.try_send().unwrap()));
}
