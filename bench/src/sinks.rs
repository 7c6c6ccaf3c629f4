//! Lines into a packer, into sinks and into queues, from one thread.

use crate::arguments::Arguments;
use crate::done::Done;
use cadence::ext::MultiLineWriter;
use cadence::{BufferedUdpMetricSink, MetricError, MetricSink, NopMetricSink, QueuingMetricSink};
use std::hint::black_box;
use std::io::{self, Write};
use std::net::{Ipv4Addr, UdpSocket};
use std::thread;
use std::time::{Duration, Instant};

/// A run over UDP sends this many lines at most.
pub const MOST_DATAGRAMS: u64 = 200_000;

/// Returns a text that looks like a counter's line. It has `length` bytes, but at least four.
pub fn make_line(length: usize) -> String {
    "k".repeat(length.saturating_sub(4)) + ":1|c"
}

// Counts the packets that it is given.
struct CountingWriter {
    bytes: u64,
    packets: u64,
}

impl Write for CountingWriter {
    fn write(&mut self, packet: &[u8]) -> io::Result<usize> {
        self.bytes += packet.len() as u64;
        self.packets += 1;
        Ok(packet.len())
    }

    fn flush(&mut self) -> io::Result<()> {
        Ok(())
    }
}

/// Writes lines to a packer over a writer that counts.
pub fn packer(arguments: &Arguments) -> Result<Done, MetricError> {
    let line = make_line(arguments.sizes[1]);
    let mut writer = MultiLineWriter::new(CountingWriter { bytes: 0, packets: 0 }, arguments.sizes[0]);
    let start = Instant::now();
    for _ in 0..arguments.calls {
        writer.write(black_box(line.as_bytes()))?;
    }
    writer.flush()?;
    let time = start.elapsed();
    let counted = writer.get_ref();
    Ok(Done::of_packets(time, counted.bytes, counted.packets))
}

/// Makes a buffered UDP sink, and the socket of this process that it sends to, which nobody reads.
pub fn make_buffered_sink(capacity: usize) -> Result<(UdpSocket, BufferedUdpMetricSink), MetricError> {
    let server = UdpSocket::bind((Ipv4Addr::LOCALHOST, 0))?;
    let socket = UdpSocket::bind((Ipv4Addr::LOCALHOST, 0))?;
    let sink = BufferedUdpMetricSink::with_capacity(server.local_addr()?, socket, capacity)?;
    Ok((server, sink))
}

/// Returns what a buffered sink sent in this time.
pub fn done_by(time: Duration, sink: &impl MetricSink) -> Done {
    let stats = sink.stats();
    Done::of_packets(time, stats.bytes_sent, stats.packets_sent)
}

/// Emits lines into a buffered UDP sink.
pub fn udp(arguments: &Arguments) -> Result<Done, MetricError> {
    let line = make_line(arguments.sizes[1]);
    let (_server, sink) = make_buffered_sink(arguments.sizes[0])?;
    let start = Instant::now();
    for _ in 0..arguments.calls.min(MOST_DATAGRAMS) {
        sink.emit(black_box(&line))?;
    }
    sink.flush()?;
    Ok(done_by(start.elapsed(), &sink))
}

/// Makes a queue over a sink. A queue of capacity 0 has no bound.
pub fn make_queue(
    sink: impl MetricSink + Send + Sync + std::panic::RefUnwindSafe + 'static,
    capacity: usize,
) -> QueuingMetricSink {
    match capacity {
        0 => QueuingMetricSink::from(sink),
        capacity => QueuingMetricSink::with_capacity(sink, capacity),
    }
}

/// Waits until the worker has taken this many lines.
pub fn wait_until_drained(queue: &QueuingMetricSink, lines: u64) {
    while queue.drained() < lines {
        thread::yield_now();
    }
}

/// Makes a queue over a sink that does nothing, whose worker has begun.
pub fn make_begun_queue(line: &str, capacity: usize) -> Result<QueuingMetricSink, MetricError> {
    let queue = make_queue(NopMetricSink, capacity);
    queue.emit(line)?;
    wait_until_drained(&queue, 1);
    Ok(queue)
}

/// Emits lines into a queue over a sink that does nothing. The time is that of the emits alone.
pub fn queue(arguments: &Arguments) -> Result<Done, MetricError> {
    let line = make_line(arguments.sizes[1]);
    let queue = make_begun_queue(&line, arguments.sizes[0])?;
    let mut accepted = 0;
    let start = Instant::now();
    for _ in 0..arguments.calls {
        accepted += u64::from(queue.emit(black_box(&line)).is_ok());
    }
    let time = start.elapsed();
    wait_until_drained(&queue, accepted + 1);
    Ok(Done::of_queue(time, arguments.sizes[0], accepted, start.elapsed()))
}
