// SPDX-License-Identifier: MIT OR Apache-2.0
//! A service that does not wait for a socket until it ends, and a test of it. It sends to port 8125.
use cadence::prelude::*;
use cadence::{BufferedUdpMetricSink, QueuingMetricSink, SpyMetricSink, StatsdClient, DEFAULT_PORT};
use std::net::UdpSocket;
use std::time::Duration;

fn connect() -> cadence::MetricResult<StatsdClient> {
    let packed = BufferedUdpMetricSink::builder()
        .with_capacity(1432)
        .with_resolver_period(Duration::from_secs(30))
        .build(("localhost", DEFAULT_PORT), UdpSocket::bind("0.0.0.0:0")?)?;
    let queued = QueuingMetricSink::builder()
        .with_capacity(10_000)
        .with_error_handler(|error| eprintln!("metric lost: {error}"))
        .build(packed);
    Ok(StatsdClient::from_sink("my.service", queued))
}

fn sell(client: &StatsdClient, took: Duration) {
    client.time_with_tags("sale", took).with_tag("page", "home").send();
}

fn main() -> cadence::MetricResult<()> {
    let (receiver, spy) = SpyMetricSink::new();
    sell(&StatsdClient::from_sink("test", spy), Duration::from_millis(1250));
    assert_eq!(b"test.sale:1250|ms|#page:home".to_vec(), receiver.recv().unwrap());

    let client = connect()?;
    sell(&client, Duration::from_millis(7));
    client.close(Duration::from_secs(5))
}
