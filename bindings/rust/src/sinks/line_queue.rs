// SPDX-License-Identifier: MIT OR Apache-2.0
//! The queue of a queuing sink: a channel, or a ring that drops its oldest line for a new one.
use super::ring::{disconnected, full, ring, Ring, RingEnd};
use std::io;
use std::sync::mpsc::{self, RecvTimeoutError, TryRecvError, TrySendError};
use std::sync::Arc;
use std::time::Duration;

/// What a full queue does with one line more.
#[derive(Clone, Copy, Debug, Default, PartialEq, Eq)]
pub enum QueuePolicy {
    /// The queue refuses the line.
    #[default]
    Refuse,
    /// The queue drops its oldest line. A queue of capacity 0 has none to drop, and refuses the line.
    DropOldest,
}

/// The end of a queue for callers. After its drop the worker gets the lines that wait, and then the end.
#[derive(Debug)]
pub(crate) enum Callers {
    Unbounded(mpsc::Sender<String>),
    Bounded(mpsc::SyncSender<String>),
    Ring(RingEnd<String>),
}

/// The end of a queue for its worker.
pub(crate) enum Worker {
    Channel(mpsc::Receiver<String>),
    Ring(Arc<Ring<String>>),
}

/// Makes a queue. Without a capacity it takes every line.
pub(crate) fn line_queue(capacity: Option<usize>, policy: QueuePolicy) -> (Callers, Worker) {
    match capacity {
        None => {
            let (sender, receiver) = mpsc::channel();
            (Callers::Unbounded(sender), Worker::Channel(receiver))
        }
        Some(1..) if policy == QueuePolicy::DropOldest => {
            let (end, ring) = ring(capacity, policy);
            (Callers::Ring(end), Worker::Ring(ring))
        }
        Some(capacity) => {
            let (sender, receiver) = mpsc::sync_channel(capacity);
            (Callers::Bounded(sender), Worker::Channel(receiver))
        }
    }
}

impl Callers {
    /// Adds a line at the end, or returns why it can't. Returns whether the oldest line was dropped for it.
    pub(crate) fn add(&self, line: String) -> io::Result<bool> {
        match self {
            Callers::Unbounded(sender) => sender.send(line).map_err(|_| disconnected())?,
            Callers::Bounded(sender) => sender.try_send(line).map_err(|error| match error {
                TrySendError::Full(_) => full(),
                TrySendError::Disconnected(_) => disconnected(),
            })?,
            Callers::Ring(end) => return end.add(line),
        }
        Ok(false)
    }
}

/// How often a worker looks for a line before it sleeps, and how many of these looks it makes without letting other
/// threads run.
const LOOKS: u32 = 11;
const SPINS: u32 = 7;

impl Worker {
    /// Waits for a line, at most for this time if there is one. It looks several times before it sleeps, because a caller
    /// that has to wake the worker takes longer.
    pub(crate) fn wait(&self, left: Option<Duration>) -> Result<String, RecvTimeoutError> {
        let receiver = match self {
            Worker::Ring(ring) => return ring.receive(left),
            Worker::Channel(receiver) => receiver,
        };
        for look in 0..LOOKS {
            match receiver.try_recv() {
                Ok(line) => return Ok(line),
                Err(TryRecvError::Disconnected) => return Err(RecvTimeoutError::Disconnected),
                Err(TryRecvError::Empty) if look < SPINS => (0..1 << look).for_each(|_| std::hint::spin_loop()),
                Err(TryRecvError::Empty) => std::thread::yield_now(),
            }
        }
        match left {
            None => receiver.recv().map_err(|_| RecvTimeoutError::Disconnected),
            Some(left) => receiver.recv_timeout(left),
        }
    }
}
