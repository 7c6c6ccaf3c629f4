// SPDX-License-Identifier: MIT OR Apache-2.0
//! A Statsd client with the interface of the crate `cadence`. A proved library formats its lines and packs them.
//!
//! It takes the place of `cadence = "1"` by a path or a `[patch.crates-io]` entry in Cargo.toml. Your code stays as it
//! is.
//!
//! ```
//! use std::net::UdpSocket;
//! use cadence::prelude::*;
//! use cadence::{BufferedUdpMetricSink, QueuingMetricSink, StatsdClient, DEFAULT_PORT};
//!
//! let socket = UdpSocket::bind("0.0.0.0:0").unwrap();
//! let sink = BufferedUdpMetricSink::from(("127.0.0.1", DEFAULT_PORT), socket).unwrap();
//! let client = StatsdClient::builder("my.service", QueuingMetricSink::from(sink)).with_tag("env", "prod").build();
//!
//! client.incr("visits").unwrap();
//! client.gauge_with_tags("load", 0.75).with_tag("page", "home").send();
//! ```
//!
//! # Which sink
//!
//! [`UdpMetricSink`] and [`UnixMetricSink`] send a datagram for each line. [`BufferedUdpMetricSink`] and
//! [`BufferedUnixMetricSink`] pack lines. [`AggregatingMetricSink`] adds lines up before it passes them on.
//! [`QueuingMetricSink`] passes lines to another sink in a thread of its own. [`SpyMetricSink`] and
//! [`BufferedSpyMetricSink`] pass them to a test. [`NopMetricSink`] drops them. A sink of your own implements
//! [`MetricSink`].
//!
//! # What is proved
//!
//! The library formats each line, packs the lines of buffered sinks, adds lines up, and reads the values of the variables of
//! [`Environment`]. It is proved. The code around it, in this crate, is plain Rust, which is tested and not proved:
//! sockets, threads and channels.
//!
//! # Floats
//!
//! A float is printed with the fewest digits that are read back as the same float, and without an exponent. If that needs
//! more than 30 places, it is rounded to 30. A zero of either sign is 0. NaN, infinities and floats more than 2 to the
//! power of 127 away from 0 are refused with [`ErrorKind::InvalidInput`], and so is a sampling rate from 2 to the power of
//! 63 on.
//!
//! # What the crate `cadence` doesn't have
//!
//! [`StatsdClientBuilder::with_strict_texts`] makes a client that refuses texts with separators, and
//! [`StatsdClientBuilder::with_cleaned_texts`] one that sends each separator as an underscore. [`StatsdClient::close`] waits until queued lines are sent, before the process ends. [`StatsdClient::timer`] times a scope.
//! [`StatsdClient::set_text`] adds a text to a set, [`StatsdClient::change`] changes a gauge, and
//! [`StatsdClient::level`] sets it, also below 0. [`MetricBuilder::with_sampling`] sends a share of the calls.
//! [`StatsdClientBuilder::with_external_data`] and [`StatsdClientBuilder::with_cardinality`] tell a Datadog agent which tags
//! to add, and [`MetricBuilder::with_cardinality`] for one metric. A queue's builder
//! has a [policy](QueuingMetricSinkBuilder::with_policy) and a [period](QueuingMetricSinkBuilder::with_flush_period).
//! [`AggregatingMetricSink`] adds lines up before it sends them, and adds numbers up by a [`LineKey`] without making a
//! line. [`StatsdClient::event`] and [`StatsdClient::service_check`] send what DogStatsD has beside metrics. [`Environment`] is
//! what the variables of the process, such as `DD_AGENT_HOST`, say about a client.
//!
//! # The library
//!
//! The build takes `libcadence_c.a` from the folder whose absolute path is in the variable `CADENCE_LIB`, and otherwise
//! from `../../lib`, where an archive with both has it. Both need the same version.
#![warn(missing_docs)]
#![deny(unsafe_code)]

/// The port on which a Statsd server listens.
pub const DEFAULT_PORT: u16 = 8125;

pub use self::builder::MetricBuilder;
pub use self::client::{
    Counted, CountedExt, Distributed, Gauged, Histogrammed, Metered, Setted, StatsdClient, StatsdClientBuilder, Timed,
};
pub use self::environment::{Environment, EnvironmentError, Target};
pub use self::event::{AlertType, Event, EventBuilder, Priority, ServiceCheck, ServiceCheckBuilder, ServiceStatus};
pub use self::guard::TimingGuard;
pub use self::metric_client::MetricClient;
pub use self::sinks::{
    AggregatingMetricSink, AggregatingMetricSinkBuilder, BufferedSpyMetricSink, BufferedUdpMetricSink,
    BufferedUdpMetricSinkBuilder, BufferedUnixMetricSink, LineKey, MetricSink, NopMetricSink, QueuePolicy, QueuingMetricSink,
    QueuingMetricSinkBuilder, SinkStats, SpyMetricSink, UdpMetricSink, UdpMetricSinkBuilder, UnixMetricSink,
};
pub use self::types::{
    Cardinality, Counter, Distribution, ErrorKind, Gauge, Histogram, Meter, Metric, MetricError, MetricResult, Set, Timer,
};

mod builder;
mod client;
mod environment;
mod event;
pub mod ext;
#[allow(unsafe_code)]
mod format;
mod guard;
mod io;
mod layout;
mod levels;
mod line;
mod metric_client;
#[allow(unsafe_code)]
mod packer;
pub mod prelude;
#[allow(unsafe_code)]
mod raw;
mod sample;
mod sinks;
#[allow(unsafe_code)]
mod sums;
mod sync;
mod telemetry;
#[allow(unsafe_code)]
mod text;
mod types;
mod value;

mod sealed {
    pub trait Sealed {}
}
