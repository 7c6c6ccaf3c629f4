// SPDX-License-Identifier: MIT OR Apache-2.0
//! Sinks over UDP.
use super::buffer::{buffered_sink, Buffer};
use super::core::{MetricSink, SinkStats, SocketStats};
use super::resolve::{LookupHandler, Resolver};
use super::DEFAULT_CAPACITY;
use crate::types::MetricResult;
use std::fmt;
use std::io;
use std::net::{ToSocketAddrs, UdpSocket};
use std::panic::RefUnwindSafe;
use std::time::Duration;

/// Makes a [`UdpMetricSink`] that looks its host up again and again.
///
/// ```no_run
/// use std::net::UdpSocket;
/// use std::time::Duration;
/// use cadence::{UdpMetricSink, DEFAULT_PORT};
///
/// let socket = UdpSocket::bind("0.0.0.0:0").unwrap();
/// let sink = UdpMetricSink::builder()
///     .with_resolver_period(Duration::from_secs(30))
///     .with_resolver_error_handler(|error| eprintln!("no address: {error}"))
///     .build(("statsd.internal", DEFAULT_PORT), socket)
///     .unwrap();
/// ```
#[derive(Default)]
pub struct UdpMetricSinkBuilder {
    period: Option<Duration>,
    errors: Option<LookupHandler>,
}

impl UdpMetricSinkBuilder {
    /// Returns the builder of a sink that looks its host up once.
    pub fn new() -> Self {
        Self::default()
    }

    /// Makes the sink. It sends to the first address of the socket's family that the host has now, or if it has none to
    /// the first one, and after a later lookup to the one that this lookup found. The socket keeps its settings, such as
    /// whether it blocks.
    ///
    /// It fails with `IoError` if the host can't be looked up or no thread can be started, and with `InvalidInput` if
    /// the host has no address.
    pub fn build<A: ToSocketAddrs + fmt::Debug + Send + Sync + RefUnwindSafe + 'static>(
        self,
        to_addr: A,
        socket: UdpSocket,
    ) -> MetricResult<UdpMetricSink> {
        Ok(UdpMetricSink::of(Resolver::new(to_addr, &socket, self.period, self.errors)?, socket))
    }

    /// Lets a thread look the host up again after each period. The drop of the sink ends the thread.
    pub fn with_resolver_period(mut self, duration: Duration) -> Self {
        self.period = Some(duration);
        self
    }

    /// Sets the handler that receives the errors of later lookups, in the thread that looks up. After such an error the
    /// address stays as it was. Without a period there are no later lookups.
    pub fn with_resolver_error_handler<F: Fn(io::Error) + Sync + Send + RefUnwindSafe + 'static>(
        mut self,
        error_handler: F,
    ) -> Self {
        self.errors = Some(Box::new(error_handler));
        self
    }
}

/// Sends each line as a datagram, in the caller's thread.
///
/// ```
/// use std::net::UdpSocket;
/// use cadence::prelude::*;
/// use cadence::{StatsdClient, UdpMetricSink};
///
/// let server = UdpSocket::bind("127.0.0.1:0").unwrap();
/// let sink = UdpMetricSink::from(server.local_addr().unwrap(), UdpSocket::bind("127.0.0.1:0").unwrap()).unwrap();
/// StatsdClient::from_sink("my.service", sink).incr("visits").unwrap();
///
/// let mut packet = [0; 64];
/// let size = server.recv(&mut packet).unwrap();
/// assert_eq!(b"my.service.visits:1|c", &packet[..size]);
/// ```
#[derive(Debug)]
pub struct UdpMetricSink {
    resolver: Resolver,
    socket: UdpSocket,
    stats: SocketStats,
}

impl UdpMetricSink {
    /// Starts a sink that may look its host up again and again.
    pub fn builder() -> UdpMetricSinkBuilder {
        UdpMetricSinkBuilder::new()
    }

    /// Makes a sink that sends to the first address of the socket's family that the host has now, or if it has none to
    /// the first one. The socket keeps its settings.
    ///
    /// It fails with `IoError` if the host can't be looked up, and with `InvalidInput` if it has no address.
    pub fn from<A: ToSocketAddrs>(to_addr: A, socket: UdpSocket) -> MetricResult<Self> {
        Ok(Self::of(Resolver::once(&to_addr, &socket)?, socket))
    }

    fn of(resolver: Resolver, socket: UdpSocket) -> Self {
        UdpMetricSink { resolver, socket, stats: SocketStats::default() }
    }
}

impl MetricSink for UdpMetricSink {
    fn emit(&self, metric: &str) -> io::Result<usize> {
        self.stats.update(self.socket.send_to(metric.as_bytes(), self.resolver.address()), metric.len())
    }

    fn stats(&self) -> SinkStats {
        (&self.stats).into()
    }
}

/// Makes a [`BufferedUdpMetricSink`] of a capacity, which may look its host up again and again, as [`UdpMetricSinkBuilder`]
/// makes a [`UdpMetricSink`].
#[derive(Default)]
pub struct BufferedUdpMetricSinkBuilder {
    capacity: Option<usize>,
    sink: UdpMetricSinkBuilder,
}

impl BufferedUdpMetricSinkBuilder {
    /// Returns the builder of a sink with packets of at most 512 bytes, which looks its host up once.
    pub fn new() -> Self {
        Self::default()
    }

    /// Makes the sink as [`UdpMetricSinkBuilder::build`] does, with the same errors, and with `IoError` if memory runs
    /// out.
    pub fn build<A: ToSocketAddrs + fmt::Debug + Send + Sync + RefUnwindSafe + 'static>(
        self,
        to_addr: A,
        socket: UdpSocket,
    ) -> MetricResult<BufferedUdpMetricSink> {
        let sink = self.sink.build(to_addr, socket)?;
        Ok(BufferedUdpMetricSink(Buffer::new(sink, self.capacity.unwrap_or(DEFAULT_CAPACITY))?))
    }

    /// Sets how many bytes a packet has at most.
    pub fn with_capacity(mut self, capacity: usize) -> Self {
        self.capacity = Some(capacity);
        self
    }

    /// Lets a thread look the host up again after each period. The drop of the sink ends the thread.
    pub fn with_resolver_period(mut self, duration: Duration) -> Self {
        self.sink = self.sink.with_resolver_period(duration);
        self
    }

    /// Sets the handler that receives the errors of later lookups, as
    /// [`UdpMetricSinkBuilder::with_resolver_error_handler`] does.
    pub fn with_resolver_error_handler<F: Fn(io::Error) + Sync + Send + RefUnwindSafe + 'static>(
        mut self,
        error_handler: F,
    ) -> Self {
        self.sink = self.sink.with_resolver_error_handler(error_handler);
        self
    }
}

/// Packs lines, and sends each packet as a datagram, in the caller's thread.
///
/// A line is buffered with a newline. If it doesn't fit beside the buffered text, that text is sent first. If the line
/// is longer than the capacity with its newline, it is sent alone, without the newline. `flush` and the drop send the
/// buffered text.
///
/// If the socket refuses the buffered text, the text stays in the buffer, and a later call sends it again. The line of
/// a call that returns an error is not buffered, so the caller may try it again. A line that is sent alone is dropped
/// if the socket refuses it, because a datagram that is too long for the socket would always be refused.
///
/// ```
/// use std::net::UdpSocket;
/// use cadence::prelude::*;
/// use cadence::{BufferedUdpMetricSink, StatsdClient};
///
/// let server = UdpSocket::bind("127.0.0.1:0").unwrap();
/// let socket = UdpSocket::bind("127.0.0.1:0").unwrap();
/// let sink = BufferedUdpMetricSink::with_capacity(server.local_addr().unwrap(), socket, 1432).unwrap();
/// let client = StatsdClient::from_sink("my.service", sink);
/// client.incr("visits").unwrap();
/// client.gauge("load", 0.75).unwrap();
/// client.flush().unwrap();
///
/// let mut packet = [0; 1432];
/// let size = server.recv(&mut packet).unwrap();
/// assert_eq!(b"my.service.visits:1|c\nmy.service.load:0.75|g\n", &packet[..size]);
/// ```
#[derive(Debug)]
pub struct BufferedUdpMetricSink(Buffer<UdpMetricSink>);

impl BufferedUdpMetricSink {
    /// Makes a sink with packets of at most 512 bytes, which sends to the address that [`UdpMetricSink::from`] takes.
    ///
    /// It fails with `IoError` if the host can't be looked up or memory runs out, and with `InvalidInput` if the host
    /// has no address.
    pub fn from<A: ToSocketAddrs>(sink_addr: A, socket: UdpSocket) -> MetricResult<Self> {
        Self::with_capacity(sink_addr, socket, DEFAULT_CAPACITY)
    }

    /// Makes a sink with packets of at most `cap` bytes, which sends to the address that [`UdpMetricSink::from`] takes.
    /// The socket keeps its settings, such as whether it blocks. It fails as [`from`](Self::from) does.
    pub fn with_capacity<A: ToSocketAddrs>(to_addr: A, socket: UdpSocket, cap: usize) -> MetricResult<Self> {
        Ok(BufferedUdpMetricSink(Buffer::new(UdpMetricSink::from(to_addr, socket)?, cap)?))
    }

    /// Starts a sink that may look its host up again and again.
    pub fn builder() -> BufferedUdpMetricSinkBuilder {
        BufferedUdpMetricSinkBuilder::new()
    }
}

buffered_sink!(BufferedUdpMetricSink);
