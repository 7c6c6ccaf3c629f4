// SPDX-License-Identifier: MIT OR Apache-2.0
//! Sinks over Unix datagram sockets.
use super::buffer::{buffered_sink, Buffer};
use super::core::{MetricSink, SinkStats, SocketStats};
use super::DEFAULT_CAPACITY;
use std::io;
use std::os::unix::net::UnixDatagram;
use std::path::{Path, PathBuf};

/// Sends each line as a datagram to a Unix socket, in the caller's thread.
///
/// `emit` fails if there is no socket at the path, or if no process receives from it.
///
/// ```no_run
/// use std::os::unix::net::UnixDatagram;
/// use cadence::{StatsdClient, UnixMetricSink};
///
/// let sink = UnixMetricSink::from("/run/statsd.sock", UnixDatagram::unbound().unwrap());
/// let client = StatsdClient::from_sink("my.service", sink);
/// ```
#[derive(Debug)]
pub struct UnixMetricSink {
    socket: UnixDatagram,
    path: PathBuf,
    stats: SocketStats,
}

impl UnixMetricSink {
    /// Makes a sink that sends to a path. The socket keeps its settings, such as whether it blocks, and may be unbound.
    pub fn from<P: AsRef<Path>>(path: P, socket: UnixDatagram) -> UnixMetricSink {
        UnixMetricSink { socket, path: path.as_ref().to_path_buf(), stats: SocketStats::default() }
    }
}

impl MetricSink for UnixMetricSink {
    fn emit(&self, metric: &str) -> io::Result<usize> {
        self.stats.update(self.socket.send_to(metric.as_bytes(), &self.path), metric.len())
    }

    fn stats(&self) -> SinkStats {
        (&self.stats).into()
    }
}

/// Packs lines, and sends each packet as a datagram to a Unix socket, in the caller's thread.
///
/// It buffers and sends lines as [`BufferedUdpMetricSink`](crate::BufferedUdpMetricSink) does, and does the same after
/// an error.
///
/// ```no_run
/// use std::os::unix::net::UnixDatagram;
/// use cadence::{BufferedUnixMetricSink, StatsdClient};
///
/// let sink = BufferedUnixMetricSink::with_capacity("/run/statsd.sock", UnixDatagram::unbound().unwrap(), 1432);
/// let client = StatsdClient::from_sink("my.service", sink);
/// ```
#[derive(Debug)]
pub struct BufferedUnixMetricSink(Buffer<UnixMetricSink>);

impl BufferedUnixMetricSink {
    /// Makes a sink with packets of at most 512 bytes, which sends to a path.
    ///
    /// # Panics
    ///
    /// If memory for the buffer is refused.
    pub fn from<P: AsRef<Path>>(path: P, socket: UnixDatagram) -> BufferedUnixMetricSink {
        Self::with_capacity(path, socket, DEFAULT_CAPACITY)
    }

    /// Makes a sink with packets of at most `cap` bytes, which sends to a path. The socket keeps its settings, and may
    /// be unbound.
    ///
    /// # Panics
    ///
    /// If memory for the buffer is refused.
    pub fn with_capacity<P: AsRef<Path>>(path: P, socket: UnixDatagram, cap: usize) -> BufferedUnixMetricSink {
        BufferedUnixMetricSink(Buffer::expect(UnixMetricSink::from(path, socket), cap))
    }
}

buffered_sink!(BufferedUnixMetricSink);
