// SPDX-License-Identifier: MIT OR Apache-2.0
//! What you need for types of your own: values, metrics and sinks.
pub use crate::client::MetricBackend;
pub use crate::io::MultiLineWriter;
pub use crate::sinks::{SocketStats, SpyReceiver};
pub use crate::value::{
    MetricValue, ToCounterValue, ToDistributionValue, ToGaugeValue, ToHistogramValue, ToLevelValue, ToMeterValue, ToSetValue,
    ToTimerValue,
};
