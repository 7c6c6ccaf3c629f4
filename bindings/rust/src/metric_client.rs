// SPDX-License-Identifier: MIT OR Apache-2.0
//! The trait of all calls of a client.
use crate::client::{Counted, CountedExt, Distributed, Gauged, Histogrammed, Metered, Setted, StatsdClient, Timed};
use std::time::Duration;

/// All calls of a client, for code that takes any client or stores one in a box.
///
/// ```
/// use cadence::{MetricClient, NopMetricSink, StatsdClient};
///
/// let client: Box<dyn MetricClient> = Box::new(StatsdClient::from_sink("my.service", NopMetricSink));
/// client.count("visits", 1).unwrap();
/// client.histogram("size", vec![0.5, 1.5]).unwrap();
/// ```
pub trait MetricClient:
    Counted<i64>
    + Counted<i32>
    + Counted<u64>
    + Counted<u32>
    + CountedExt
    + Timed<u64>
    + Timed<Duration>
    + Timed<Vec<u64>>
    + Timed<Vec<Duration>>
    + Gauged<u64>
    + Gauged<f64>
    + Metered<u64>
    + Histogrammed<u64>
    + Histogrammed<f64>
    + Histogrammed<Duration>
    + Histogrammed<Vec<u64>>
    + Histogrammed<Vec<f64>>
    + Histogrammed<Vec<Duration>>
    + Distributed<u64>
    + Distributed<f64>
    + Distributed<Vec<u64>>
    + Distributed<Vec<f64>>
    + Setted<i64>
{
}

impl MetricClient for StatsdClient {}
