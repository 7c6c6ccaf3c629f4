// SPDX-License-Identifier: MIT OR Apache-2.0
//! The counts of a client, which it sends as counters of its own.
use crate::client::StatsdClientBuilder;
use crate::format::{Numbers, Parts};
use crate::layout::{Kind, Options};
use crate::raw::OwnedSettings;
use crate::sinks::MetricSink;
use std::sync::atomic::{AtomicU64, Ordering};
use std::sync::Mutex;
use std::time::{Duration, Instant};

/// The names of the counters, in the order of the counts.
const NAMES: [&str; 5] = ["bytes_sent", "packets_sent", "bytes_dropped", "packets_dropped", "lines_refused"];

type Counts = [u64; NAMES.len()];

/// Which counts of a sink were sent, and when.
pub(crate) struct Telemetry {
    /// The settings of the lines.
    settings: OwnedSettings,
    every: Duration,
    /// How many lines the sink refused.
    refused: AtomicU64,
    reported: Mutex<(Instant, Counts)>,
}

impl Telemetry {
    /// Begins with the counts that the sink has now.
    pub(crate) fn new(settings: OwnedSettings, every: Duration, sink: &dyn MetricSink) -> Telemetry {
        let (now, counts) = (Instant::now(), counts_of(sink, 0));
        Telemetry { settings, every, refused: AtomicU64::new(0), reported: Mutex::new((now, counts)) }
    }

    /// Counts a line that the sink refused.
    pub(crate) fn count_refused(&self) {
        self.refused.fetch_add(1, Ordering::Relaxed);
    }

    /// Gives the sink a counter for each count that has grown since the last report, if that is long enough ago. If the sink
    /// refuses a counter, the next report adds its number. A call that comes while another one reports does nothing, so a
    /// sink may call the client.
    pub(crate) fn report(&self, sink: &dyn MetricSink) {
        let Ok(mut reported) = self.reported.try_lock() else { return };
        if reported.0.elapsed() < self.every {
            return;
        }
        reported.0 = Instant::now();
        let counts = counts_of(sink, self.refused.load(Ordering::Relaxed));
        for (i, count) in counts.into_iter().enumerate() {
            let grown = count.wrapping_sub(reported.1[i]);
            if grown != 0 && self.send(sink, NAMES[i], grown) {
                reported.1[i] = count;
            }
        }
    }

    /// Gives the sink a counter, and returns whether the sink took it.
    fn send(&self, sink: &dyn MetricSink, key: &str, number: u64) -> bool {
        static NONE: Options<'static> = Options::new();
        let (settings, numbers) = (self.settings.lend(), [number]);
        let parts = Parts { settings, kind: Kind::Counter, key, numbers: Numbers::new(&numbers), options: &NONE };
        parts.text().is_ok_and(|line| sink.emit(line.as_str()).is_ok())
    }
}

impl StatsdClientBuilder {
    /// Lets the client send its own counts: at a flush, and before a call that comes so long after the last report, it
    /// gives its sink a counter for each count that has grown since then. They are `bytes_sent`, `packets_sent`,
    /// `bytes_dropped` and `packets_dropped`, which the sink's [`stats`](MetricSink::stats) say, and `lines_refused`, the
    /// lines for which the sink returned an error, each after the prefix and a dot, with the default tags and the default
    /// container. There is at most one report in this time, and what a report adds to the counts is in the next one. If
    /// the sink refuses a counter, the next report adds its number. The crate `cadence` doesn't have this call.
    ///
    /// ```
    /// use cadence::prelude::*;
    /// use cadence::{BufferedUdpMetricSink, StatsdClient};
    /// use std::time::Duration;
    ///
    /// let server = std::net::UdpSocket::bind("127.0.0.1:0").unwrap();
    /// let socket = std::net::UdpSocket::bind("127.0.0.1:0").unwrap();
    /// let sink = BufferedUdpMetricSink::from(server.local_addr().unwrap(), socket).unwrap();
    /// let client = StatsdClient::builder("my.service", sink).with_telemetry("my.statsd", Duration::ZERO).build();
    /// client.incr("visits").unwrap();
    /// client.flush().unwrap();
    /// client.flush().unwrap();
    /// let mut packet = [0; 512];
    /// assert_eq!("my.service.visits:1|c\n".len(), server.recv(&mut packet).unwrap());
    /// let size = server.recv(&mut packet).unwrap();
    /// assert_eq!("my.statsd.bytes_sent:22|c\nmy.statsd.packets_sent:1|c\n".as_bytes(), &packet[..size]);
    /// ```
    pub fn with_telemetry<K: ToString>(mut self, prefix: K, every: Duration) -> Self {
        self.telemetry = Some((prefix.to_string(), every));
        self
    }
}

/// Returns the counts of a sink that has refused this many lines.
fn counts_of(sink: &dyn MetricSink, refused: u64) -> Counts {
    let stats = sink.stats();
    [stats.bytes_sent, stats.packets_sent, stats.bytes_dropped, stats.packets_dropped, refused]
}
