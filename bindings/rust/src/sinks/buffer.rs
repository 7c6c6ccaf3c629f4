// SPDX-License-Identifier: MIT OR Apache-2.0
//! The buffer of lines that the buffered sinks share.
use super::core::{MetricSink, SinkStats};
use crate::packer::Packer;
use std::io;
use std::sync::{Mutex, MutexGuard, PoisonError};

/// Makes a sink of a type that has a buffer.
macro_rules! buffered_sink {
    ($name:ident) => {
        impl MetricSink for $name {
            fn emit(&self, metric: &str) -> io::Result<usize> {
                self.0.emit(metric)
            }

            fn flush(&self) -> io::Result<()> {
                self.0.flush()
            }

            fn stats(&self) -> SinkStats {
                self.0.stats()
            }
        }
    };
}
pub(crate) use buffered_sink;

/// Packs lines by the library's packer, and passes each packet to a sink as one text. The drop sends the held text.
#[derive(Debug)]
pub(crate) struct Buffer<S: MetricSink> {
    packer: Mutex<Packer>,
    sink: S,
    capacity: usize,
}

impl<S: MetricSink> Buffer<S> {
    pub(crate) fn new(sink: S, capacity: usize) -> io::Result<Self> {
        Ok(Buffer { packer: Mutex::new(Packer::with_packets(capacity, 2)?), sink, capacity })
    }

    /// Makes a buffer for a constructor that can't return an error. It panics if memory runs out.
    pub(crate) fn expect(sink: S, capacity: usize) -> Self {
        Self::new(sink, capacity).expect("a buffered sink needs memory of its capacity")
    }

    // The packer is in order after a panic in the sink, because the library was not running then.
    fn packer(&self) -> MutexGuard<'_, Packer> {
        self.packer.lock().unwrap_or_else(PoisonError::into_inner)
    }

    /// Sends the held text. If the sink refuses it, it stays held. An interrupted send is tried again.
    fn send(&self, packer: &mut Packer) -> io::Result<()> {
        loop {
            let held = packer.held();
            if held.is_empty() {
                return Ok(());
            }
            match self.sink.emit(held) {
                Ok(_) => return packer.drop_held(),
                Err(error) if error.kind() == io::ErrorKind::Interrupted => {}
                Err(error) => return Err(error),
            }
        }
    }
}

impl<S: MetricSink> MetricSink for Buffer<S> {
    /// Buffers a line. If it doesn't fit beside the held text, that text is sent first. After an error the line is not
    /// buffered, so the caller may try again. A line that is longer than the capacity with its newline is sent alone, and
    /// is not buffered if the sink refuses it, because it may be longer than any datagram.
    fn emit(&self, line: &str) -> io::Result<usize> {
        let mut packer = self.packer();
        let held = packer.held_len();
        if held > 0 && line.len() >= self.capacity - held {
            self.send(&mut packer)?;
        }
        if line.len() >= self.capacity {
            return self.sink.emit(line);
        }
        packer.keep(line)?;
        Ok(line.len())
    }

    fn flush(&self) -> io::Result<()> {
        self.send(&mut self.packer())
    }

    /// Returns the counts of the sink, without the lock, which a call may have while it sends.
    fn stats(&self) -> SinkStats {
        self.sink.stats()
    }
}

impl<S: MetricSink> Drop for Buffer<S> {
    fn drop(&mut self) {
        let _ = self.flush();
    }
}

#[cfg(test)]
#[path = "../../tests/unit/buffer.rs"]
mod tests;
