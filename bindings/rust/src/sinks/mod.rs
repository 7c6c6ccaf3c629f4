// SPDX-License-Identifier: MIT OR Apache-2.0
//! Sinks: a client passes its lines to one.
mod aggregating;
mod buffer;
mod core;
mod flush_timer;
mod host;
mod line_queue;
mod queuing;
mod receiver;
mod resolve;
mod ring;
mod spy;
mod udp;
mod unix;

pub(crate) use self::buffer::Buffer;
pub(crate) use self::host::{HostSink, Periods};

pub use self::aggregating::{AggregatingMetricSink, AggregatingMetricSinkBuilder, LineKey};
pub use self::core::{MetricSink, NopMetricSink, SinkStats, SocketStats};
pub use self::line_queue::QueuePolicy;
pub use self::queuing::{QueuingMetricSink, QueuingMetricSinkBuilder};
pub use self::receiver::SpyReceiver;
pub use self::spy::{BufferedSpyMetricSink, SpyMetricSink};
pub use self::udp::{BufferedUdpMetricSink, BufferedUdpMetricSinkBuilder, UdpMetricSink, UdpMetricSinkBuilder};
pub use self::unix::{BufferedUnixMetricSink, UnixMetricSink};

/// The capacity in bytes of a buffered sink if none is set. A datagram of this size passes most networks whole.
pub(crate) const DEFAULT_CAPACITY: usize = 512;
