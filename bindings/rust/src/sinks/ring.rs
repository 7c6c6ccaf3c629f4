// SPDX-License-Identifier: MIT OR Apache-2.0
//! A queue of messages under a lock, for spies and for the policy that drops the oldest line.
use super::line_queue::QueuePolicy;
use std::collections::VecDeque;
use std::io;
use std::sync::mpsc::{RecvTimeoutError, TryRecvError};
use std::sync::{Arc, Condvar, Mutex, MutexGuard, PoisonError, Weak};
use std::time::Duration;

/// Returns the error of a queue that has no room.
pub(crate) fn full() -> io::Error {
    io::Error::other("channel full")
}

/// Returns the error of a queue that takes no more messages.
pub(crate) fn disconnected() -> io::Error {
    io::Error::other("channel disconnected")
}

/// A queue, as its receivers share it. If the capacity is 0, a message is accepted only while a receiver waits for it.
#[derive(Debug)]
pub(crate) struct Ring<T> {
    pub(crate) capacity: Option<usize>,
    policy: QueuePolicy,
    waiting: Mutex<Waiting<T>>,
    changed: Condvar,
}

/// The messages that wait, how many receivers wait for one, and whether no more will come.
#[derive(Debug)]
struct Waiting<T> {
    messages: VecDeque<T>,
    receivers: usize,
    ended: bool,
}

/// The end of a queue for its senders. After its drop the receivers get the messages that wait, and then the end.
#[derive(Debug)]
pub(crate) struct RingEnd<T>(Weak<Ring<T>>);

/// Makes a queue. Without a capacity it accepts every message.
pub(crate) fn ring<T>(capacity: Option<usize>, policy: QueuePolicy) -> (RingEnd<T>, Arc<Ring<T>>) {
    let waiting = Mutex::new(Waiting { messages: VecDeque::new(), receivers: 0, ended: false });
    let ring = Arc::new(Ring { capacity, policy, waiting, changed: Condvar::new() });
    (RingEnd(Arc::downgrade(&ring)), ring)
}

impl<T> RingEnd<T> {
    /// Adds a message at the end, or returns why it can't. Returns whether the oldest message was dropped for it.
    pub(crate) fn add(&self, message: T) -> io::Result<bool> {
        let ring = self.0.upgrade().ok_or_else(disconnected)?;
        let mut waiting = ring.waiting();
        let room = ring.capacity.map(|capacity| if capacity == 0 { waiting.receivers } else { capacity });
        let is_full = room.is_some_and(|room| waiting.messages.len() >= room);
        if is_full && ring.policy == QueuePolicy::Refuse {
            return Err(full());
        }
        if is_full {
            waiting.messages.pop_front();
        }
        waiting.messages.push_back(message);
        ring.changed.notify_one();
        Ok(is_full)
    }
}

impl<T> Drop for RingEnd<T> {
    fn drop(&mut self) {
        if let Some(ring) = self.0.upgrade() {
            ring.waiting().ended = true;
            ring.changed.notify_all();
        }
    }
}

impl<T> Waiting<T> {
    fn take(&mut self) -> Result<T, TryRecvError> {
        self.messages.pop_front().ok_or(if self.ended { TryRecvError::Disconnected } else { TryRecvError::Empty })
    }
}

impl<T> Ring<T> {
    // No code of a user runs under the lock, so the messages are in order after a panic.
    fn waiting(&self) -> MutexGuard<'_, Waiting<T>> {
        self.waiting.lock().unwrap_or_else(PoisonError::into_inner)
    }

    /// Returns how many messages wait.
    pub(crate) fn len(&self) -> usize {
        self.waiting().messages.len()
    }

    /// Removes the oldest message, if one waits.
    pub(crate) fn take(&self) -> Result<T, TryRecvError> {
        self.waiting().take()
    }

    /// Waits for a message, at most for this time if there is one.
    pub(crate) fn receive(&self, left: Option<Duration>) -> Result<T, RecvTimeoutError> {
        let rests = |waiting: &mut Waiting<T>| waiting.messages.is_empty() && !waiting.ended;
        let mut waiting = self.waiting();
        waiting.receivers += 1;
        let mut waiting = match left {
            None => self.changed.wait_while(waiting, rests).unwrap_or_else(PoisonError::into_inner),
            Some(left) => self.changed.wait_timeout_while(waiting, left, rests).unwrap_or_else(PoisonError::into_inner).0,
        };
        waiting.receivers -= 1;
        waiting.take().map_err(|error| match error {
            TryRecvError::Empty => RecvTimeoutError::Timeout,
            TryRecvError::Disconnected => RecvTimeoutError::Disconnected,
        })
    }
}
