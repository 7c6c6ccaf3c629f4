// SPDX-License-Identifier: MIT OR Apache-2.0
//! The trait of sinks, and the counts of a sink.
use std::io;
use std::sync::atomic::{AtomicU64, Ordering};
use std::sync::Arc;
use std::time::Duration;

/// How many bytes and packets a sink has sent, and how many its socket refused.
#[derive(Clone, Debug, Default)]
pub struct SinkStats {
    /// The bytes of the packets that the socket took.
    pub bytes_sent: u64,
    /// The packets that the socket took.
    pub packets_sent: u64,
    /// The bytes that the socket refused. A buffered sink tries a packet again, so these are counted at each try.
    pub bytes_dropped: u64,
    /// How often the socket refused a packet.
    pub packets_dropped: u64,
}

/// Counts for a sink of your own. Threads add to them without a lock. Clones share the counts.
///
/// ```
/// use std::net::{SocketAddr, UdpSocket};
/// use cadence::ext::SocketStats;
/// use cadence::{MetricSink, SinkStats};
///
/// struct Loopback {
///     socket: UdpSocket,
///     to: SocketAddr,
///     stats: SocketStats,
/// }
///
/// impl MetricSink for Loopback {
///     fn emit(&self, metric: &str) -> std::io::Result<usize> {
///         self.stats.update(self.socket.send_to(metric.as_bytes(), self.to), metric.len())
///     }
///
///     fn stats(&self) -> SinkStats {
///         (&self.stats).into()
///     }
/// }
/// ```
#[derive(Debug, Clone, Default)]
pub struct SocketStats {
    bytes_sent: Arc<AtomicU64>,
    packets_sent: Arc<AtomicU64>,
    bytes_dropped: Arc<AtomicU64>,
    packets_dropped: Arc<AtomicU64>,
}

impl SocketStats {
    /// Counts bytes that were sent.
    pub fn incr_bytes_sent(&self, n: u64) {
        self.bytes_sent.fetch_add(n, Ordering::Relaxed);
    }

    /// Counts a packet that was sent.
    pub fn incr_packets_sent(&self) {
        self.packets_sent.fetch_add(1, Ordering::Relaxed);
    }

    /// Counts bytes that were refused.
    pub fn incr_bytes_dropped(&self, n: u64) {
        self.bytes_dropped.fetch_add(n, Ordering::Relaxed);
    }

    /// Counts a packet that was refused.
    pub fn incr_packets_dropped(&self) {
        self.packets_dropped.fetch_add(1, Ordering::Relaxed);
    }

    /// Counts the result of a socket for a packet of `len` bytes, and returns this result.
    pub fn update(&self, res: io::Result<usize>, len: usize) -> io::Result<usize> {
        match &res {
            Ok(sent) => {
                self.incr_bytes_sent(*sent as u64);
                self.incr_packets_sent();
            }
            Err(_) => {
                self.incr_bytes_dropped(len as u64);
                self.incr_packets_dropped();
            }
        }
        res
    }
}

impl From<&SocketStats> for SinkStats {
    fn from(stats: &SocketStats) -> Self {
        SinkStats {
            bytes_sent: stats.bytes_sent.load(Ordering::Relaxed),
            packets_sent: stats.packets_sent.load(Ordering::Relaxed),
            bytes_dropped: stats.bytes_dropped.load(Ordering::Relaxed),
            packets_dropped: stats.packets_dropped.load(Ordering::Relaxed),
        }
    }
}

/// Receives a client's lines, and sends or stores them.
///
/// ```
/// use cadence::prelude::*;
/// use cadence::{MetricSink, StatsdClient};
///
/// struct Printer;
///
/// impl MetricSink for Printer {
///     fn emit(&self, metric: &str) -> std::io::Result<usize> {
///         println!("{metric}");
///         Ok(metric.len())
///     }
/// }
///
/// StatsdClient::from_sink("my.service", Printer).incr("visits").unwrap();
/// ```
pub trait MetricSink {
    /// Takes a line, which has no newline at its end, and returns how many of its bytes it took. 0 isn't an error.
    fn emit(&self, metric: &str) -> io::Result<usize>;

    /// Sends the lines that the sink has buffered. A sink without a buffer does nothing.
    fn flush(&self) -> io::Result<()> {
        Ok(())
    }

    /// Takes no more lines, passes on those that it has queued, and flushes. It waits for that at most for this time, and
    /// fails with `TimedOut` after it. A sink without a queue flushes. The crate `cadence` doesn't have this call.
    fn stop_and_wait(&self, _timeout: Duration) -> io::Result<()> {
        self.flush()
    }

    /// Returns how much was sent and refused. A sink that doesn't count returns zeros.
    fn stats(&self) -> SinkStats {
        SinkStats::default()
    }
}

/// Accepts every line and sends none.
#[derive(Debug, Clone)]
pub struct NopMetricSink;

impl MetricSink for NopMetricSink {
    fn emit(&self, _metric: &str) -> io::Result<usize> {
        Ok(0)
    }
}
