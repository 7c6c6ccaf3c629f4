// SPDX-License-Identifier: MIT OR Apache-2.0
//! Sinks for tests, whose lines a receiver returns.
use super::buffer::{buffered_sink, Buffer};
use super::line_queue::QueuePolicy;
use super::receiver::SpyReceiver;
use super::ring::{ring, RingEnd};
use super::{MetricSink, SinkStats, DEFAULT_CAPACITY};
use std::io;

/// Sends each line to a receiver, for tests of a service.
///
/// `emit` fails if the queue is full or the receiver was dropped.
///
/// ```
/// use cadence::prelude::*;
/// use cadence::{SpyMetricSink, StatsdClient};
///
/// let (receiver, sink) = SpyMetricSink::new();
/// StatsdClient::from_sink("my.service", sink).count("visits", 3).unwrap();
/// assert_eq!(b"my.service.visits:3|c".to_vec(), receiver.recv().unwrap());
/// ```
#[derive(Debug)]
pub struct SpyMetricSink(RingEnd<Vec<u8>>);

impl SpyMetricSink {
    /// Makes a spy that accepts every line.
    #[allow(clippy::new_ret_no_self)]
    pub fn new() -> (SpyReceiver<Vec<u8>>, Self) {
        Self::of(None)
    }

    /// Makes a spy that refuses a line if `queue` lines already wait for the receiver.
    pub fn with_capacity(queue: usize) -> (SpyReceiver<Vec<u8>>, Self) {
        Self::of(Some(queue))
    }

    fn of(queue: Option<usize>) -> (SpyReceiver<Vec<u8>>, Self) {
        let (end, ring) = ring(queue, QueuePolicy::Refuse);
        (SpyReceiver(ring), SpyMetricSink(end))
    }
}

impl MetricSink for SpyMetricSink {
    fn emit(&self, metric: &str) -> io::Result<usize> {
        self.0.add(metric.as_bytes().to_vec())?;
        Ok(metric.len())
    }
}

/// Packs lines as the buffered sinks over sockets do, and sends each packet to a receiver, for tests of a service.
///
/// `flush` and the drop send the held text to the receiver.
///
/// ```
/// use cadence::prelude::*;
/// use cadence::{BufferedSpyMetricSink, StatsdClient};
///
/// let (receiver, sink) = BufferedSpyMetricSink::new();
/// let client = StatsdClient::from_sink("my.service", sink);
/// client.incr("visits").unwrap();
/// client.incr("logins").unwrap();
/// assert!(receiver.is_empty());
/// client.flush().unwrap();
/// assert_eq!(b"my.service.visits:1|c\nmy.service.logins:1|c\n".to_vec(), receiver.recv().unwrap());
/// ```
#[derive(Debug)]
pub struct BufferedSpyMetricSink(Buffer<SpyMetricSink>);

impl BufferedSpyMetricSink {
    /// Makes a spy with packets of at most 512 bytes, which accepts every packet.
    #[allow(clippy::new_ret_no_self)]
    pub fn new() -> (SpyReceiver<Vec<u8>>, Self) {
        Self::with_capacity(None, None)
    }

    /// Makes a spy with packets of at most `buffer` bytes, or 512 if that is `None`. It refuses a packet if `queue`
    /// packets already wait for the receiver.
    ///
    /// # Panics
    ///
    /// If memory for the buffer is refused.
    pub fn with_capacity(queue: Option<usize>, buffer: Option<usize>) -> (SpyReceiver<Vec<u8>>, Self) {
        let (receiver, sink) = SpyMetricSink::of(queue);
        (receiver, BufferedSpyMetricSink(Buffer::expect(sink, buffer.unwrap_or(DEFAULT_CAPACITY))))
    }
}

buffered_sink!(BufferedSpyMetricSink);
