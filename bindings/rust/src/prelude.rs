// SPDX-License-Identifier: MIT OR Apache-2.0
//! The traits with the calls of a client.
//!
//! ```
//! use cadence::prelude::*;
//! use cadence::{NopMetricSink, StatsdClient};
//!
//! let client = StatsdClient::from_sink("my.service", NopMetricSink);
//! client.gauge("load", 0.75).unwrap();
//! client.set("users", 42).unwrap();
//! ```
pub use crate::client::{Counted, CountedExt, Distributed, Gauged, Histogrammed, Metered, Setted, Timed};
pub use crate::metric_client::MetricClient;
