// SPDX-License-Identifier: MIT OR Apache-2.0
//! The receiving end of a spy.
use super::ring::Ring;
use std::fmt;
use std::sync::mpsc::{RecvError, RecvTimeoutError, TryRecvError};
use std::sync::Arc;
use std::time::{Duration, Instant};

/// The receiving end of a spy. It receives each line or packet of the spy.
///
/// It has the calls of the receiver of the crate `crossbeam-channel`, with the errors of `std::sync::mpsc`. Clones
/// share one channel, and each message goes to one of them.
///
/// ```
/// use cadence::prelude::*;
/// use cadence::{SpyMetricSink, StatsdClient};
///
/// let (receiver, sink) = SpyMetricSink::new();
/// let client = StatsdClient::from_sink("my.service", sink);
/// client.incr("visits").unwrap();
/// assert_eq!(1, receiver.len());
/// assert_eq!(b"my.service.visits:1|c".to_vec(), receiver.recv().unwrap());
/// assert!(receiver.try_recv().is_err());
/// ```
pub struct SpyReceiver<T>(pub(crate) Arc<Ring<T>>);

impl<T> SpyReceiver<T> {
    /// Waits for a message. It fails if there is none and the sink was dropped.
    pub fn recv(&self) -> Result<T, RecvError> {
        self.0.receive(None).map_err(|_| RecvError)
    }

    /// Returns the oldest message without waiting. It fails with `Empty` if there is no message, and with `Disconnected`
    /// if there is none and the sink was dropped.
    pub fn try_recv(&self) -> Result<T, TryRecvError> {
        self.0.take()
    }

    /// Waits for a message, but at most for this time. It fails with `Timeout` if no message came, and with
    /// `Disconnected` if there is none and the sink was dropped.
    pub fn recv_timeout(&self, timeout: Duration) -> Result<T, RecvTimeoutError> {
        self.0.receive(Some(timeout))
    }

    /// Waits for a message, but at most until this deadline. The errors are those of
    /// [`recv_timeout`](Self::recv_timeout).
    pub fn recv_deadline(&self, deadline: Instant) -> Result<T, RecvTimeoutError> {
        self.recv_timeout(deadline.saturating_duration_since(Instant::now()))
    }

    /// Returns how many messages wait.
    pub fn len(&self) -> usize {
        self.0.len().min(self.capacity().unwrap_or(usize::MAX))
    }

    /// Returns whether no message waits.
    pub fn is_empty(&self) -> bool {
        self.len() == 0
    }

    /// Returns whether as many messages wait as the capacity allows.
    pub fn is_full(&self) -> bool {
        self.capacity() == Some(self.len())
    }

    /// Returns how many messages may wait, if there is a limit.
    pub fn capacity(&self) -> Option<usize> {
        self.0.capacity
    }

    /// Returns an iterator that waits for each message. It ends when no message is left and the sink was dropped.
    pub fn iter(&self) -> impl Iterator<Item = T> + '_ {
        std::iter::from_fn(|| self.recv().ok())
    }

    /// Returns an iterator over the messages that wait. It doesn't wait for more.
    pub fn try_iter(&self) -> impl Iterator<Item = T> + '_ {
        std::iter::from_fn(|| self.try_recv().ok())
    }

    /// Returns whether both receivers share one channel.
    pub fn same_channel(&self, other: &SpyReceiver<T>) -> bool {
        Arc::ptr_eq(&self.0, &other.0)
    }
}

impl<T> Clone for SpyReceiver<T> {
    fn clone(&self) -> Self {
        SpyReceiver(Arc::clone(&self.0))
    }
}

impl<T> fmt::Debug for SpyReceiver<T> {
    fn fmt(&self, f: &mut fmt::Formatter<'_>) -> fmt::Result {
        f.pad("Receiver { .. }")
    }
}

/// The messages of a receiver, each of which is waited for, until the sink is gone.
#[derive(Debug)]
pub struct Messages<T>(SpyReceiver<T>);

impl<T> Iterator for Messages<T> {
    type Item = T;

    fn next(&mut self) -> Option<T> {
        self.0.recv().ok()
    }
}

impl<T> IntoIterator for SpyReceiver<T> {
    type Item = T;
    type IntoIter = Messages<T>;

    fn into_iter(self) -> Messages<T> {
        Messages(self)
    }
}

impl<T> IntoIterator for &SpyReceiver<T> {
    type Item = T;
    type IntoIter = Messages<T>;

    fn into_iter(self) -> Messages<T> {
        self.clone().into_iter()
    }
}
