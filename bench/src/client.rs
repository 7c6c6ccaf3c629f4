//! Calls of a client over a sink that does nothing. The check is the number of bytes of all lines.

use crate::arguments::Arguments;
use crate::done::{Done, Note};
use cadence::prelude::*;
use cadence::{Metric, MetricError, NopMetricSink, StatsdClient};
use std::hint::black_box;
use std::time::Instant;

const PREFIX: &str = "some.prefix";

// Makes `calls` calls, each with its number modulo 1000, and returns the bytes of their lines.
fn measure(calls: u64, mut call: impl FnMut(u64) -> Result<usize, MetricError>) -> Result<Done, MetricError> {
    let mut check = 0u64;
    let start = Instant::now();
    for i in 0..calls {
        check = check.wrapping_add(call(i % 1000)? as u64);
    }
    Ok(Done { time: start.elapsed(), check, note: Note::Nothing })
}

fn client() -> StatsdClient {
    StatsdClient::from_sink(PREFIX, NopMetricSink)
}

/// Sends counters without tags.
pub fn count(arguments: &Arguments) -> Result<Done, MetricError> {
    let client = client();
    measure(arguments.calls, |i| Ok(client.count(black_box("some.counter"), black_box(i as i64))?.as_metric_str().len()))
}

/// Sends counters with three tags of their own, two of them with a key.
pub fn count_tags(arguments: &Arguments) -> Result<Done, MetricError> {
    let client = client();
    measure(arguments.calls, |i| {
        let metric = client
            .count_with_tags(black_box("some.counter"), black_box(i as i64))
            .with_tag(black_box("host"), black_box("web03.example.com"))
            .with_tag(black_box("region"), black_box("us-east-2"))
            .with_tag_value(black_box("beta"))
            .try_send()?;
        Ok(metric.as_metric_str().len())
    })
}

/// Sends counters with all options of a call: two tags, one of them with a key, a container, a time and a rate.
pub fn options(arguments: &Arguments) -> Result<Done, MetricError> {
    let client = client();
    measure(arguments.calls, |i| {
        let metric = client
            .count_with_tags(black_box("some.counter"), black_box(i as i64))
            .with_tag(black_box("host"), black_box("web03.example.com"))
            .with_tag_value(black_box("beta"))
            .with_container_id(black_box("4bb1"))
            .with_timestamp(black_box(1_700_000_000))
            .with_sampling_rate(black_box(0.5))
            .try_send()?;
        Ok(metric.as_metric_str().len())
    })
}

/// Sends histograms of four values.
pub fn histogram4(arguments: &Arguments) -> Result<Done, MetricError> {
    let client = client();
    measure(arguments.calls, |i| {
        let values = black_box(vec![i, i + 1, i + 2, i + 3]);
        Ok(client.histogram(black_box("some.histogram"), values)?.as_metric_str().len())
    })
}

/// Sends counters with this many tags of their own.
pub fn tags(arguments: &Arguments) -> Result<Done, MetricError> {
    let client = client();
    measure(arguments.calls, |i| {
        let mut call = client.count_with_tags(black_box("some.counter"), black_box(i as i64));
        for _ in 0..arguments.sizes[0] {
            call = call.with_tag(black_box("region"), black_box("us-east-2"));
        }
        Ok(call.try_send()?.as_metric_str().len())
    })
}

/// Sends counters of a client with this many default tags.
pub fn default_tags(arguments: &Arguments) -> Result<Done, MetricError> {
    let mut builder = StatsdClient::builder(PREFIX, NopMetricSink);
    for _ in 0..arguments.sizes[0] {
        builder = builder.with_tag("region", "us-east-2");
    }
    let client = builder.build();
    measure(arguments.calls, |i| {
        let metric = client.count_with_tags(black_box("some.counter"), black_box(i as i64)).try_send()?;
        Ok(metric.as_metric_str().len())
    })
}

/// Sends histograms of this many values.
pub fn values(arguments: &Arguments) -> Result<Done, MetricError> {
    let client = client();
    measure(arguments.calls, |i| {
        let first = black_box(i);
        let mut values = Vec::with_capacity(arguments.sizes[0]);
        for j in 0..arguments.sizes[0] as u64 {
            values.push(first + j);
        }
        Ok(client.histogram(black_box("some.histogram"), values)?.as_metric_str().len())
    })
}

/// Sends counters whose key has this many bytes.
pub fn key(arguments: &Arguments) -> Result<Done, MetricError> {
    let client = client();
    let key = "k".repeat(arguments.sizes[0]);
    measure(arguments.calls, |i| Ok(client.count(black_box(&key[..]), black_box(i as i64))?.as_metric_str().len()))
}
