// SPDX-License-Identifier: MIT OR Apache-2.0
// Counts 10 names with three tags a million times, with and without sums, and prints how many packets and bytes that makes.
use cadence::prelude::*;
use cadence::{AggregatingMetricSink, BufferedSpyMetricSink, MetricSink, StatsdClient};
use std::error::Error;

fn count<S: MetricSink + Send + Sync + std::panic::RefUnwindSafe + 'static>(sink: S) -> Result<(), Box<dyn Error>> {
    let client = StatsdClient::builder("some.prefix", sink)
        .with_tag("host", "web03.example.com")
        .with_tag("region", "us-east-2")
        .with_tag_value("beta")
        .build();
    let names: Vec<String> = (0..10).map(|n| format!("some.counte{n}")).collect();
    for turn in 0..1_000_000 {
        client.incr(&names[turn % names.len()])?;
    }
    Ok(client.flush()?)
}

fn main() -> Result<(), Box<dyn Error>> {
    for sums in [false, true] {
        let (packets, spy) = BufferedSpyMetricSink::with_capacity(None, Some(1432));
        if sums {
            count(AggregatingMetricSink::from(spy)?)?;
        } else {
            count(spy)?;
        }
        let lengths: Vec<usize> = packets.try_iter().map(|packet| packet.len()).collect();
        println!("{} packets, {} bytes", lengths.len(), lengths.iter().sum::<usize>());
    }
    Ok(())
}
