// SPDX-License-Identifier: MIT OR Apache-2.0
//! A timer that sends how long a scope took.
use crate::client::{StatsdClient, Timed};
use crate::layout::Tag;
use crate::types::{MetricResult, Timer};
use std::fmt;
use std::time::{Duration, Instant};

/// A running timer. When it is dropped or stopped, it sends the milliseconds since its start. If a drop can't send them,
/// the error goes to the client's error handler. The crate `cadence` doesn't have this type.
///
/// ```
/// use cadence::{SpyMetricSink, StatsdClient};
///
/// let (receiver, sink) = SpyMetricSink::new();
/// let client = StatsdClient::from_sink("my.service", sink);
/// {
///     let _timer = client.timer("query").with_tag("table", "users");
///     // the work to be timed
/// }
/// assert!(receiver.recv().unwrap().ends_with(b"|ms|#table:users"));
/// ```
#[must_use = "a timer that is dropped at once times nothing"]
pub struct TimingGuard<'a> {
    client: &'a StatsdClient,
    key: &'a str,
    tags: Vec<Tag<'a>>,
    start: Option<Instant>,
}

impl StatsdClient {
    /// Starts a timer, which sends its time when it is dropped or stopped.
    pub fn timer<'a>(&'a self, key: &'a str) -> TimingGuard<'a> {
        TimingGuard { client: self, key, tags: Vec::new(), start: Some(Instant::now()) }
    }
}

impl<'a> TimingGuard<'a> {
    /// Adds a tag with a key.
    pub fn with_tag(mut self, key: &'a str, value: &'a str) -> Self {
        self.tags.push(Tag::new(Some(key), value));
        self
    }

    /// Adds a tag without a key.
    pub fn with_tag_value(mut self, value: &'a str) -> Self {
        self.tags.push(Tag::new(None, value));
        self
    }

    /// Sends the time since the start, and returns the metric. The drop then sends nothing. It fails as
    /// [`try_send`](crate::MetricBuilder::try_send) does.
    pub fn stop(mut self) -> MetricResult<Timer> {
        let time = self.start.take().map_or(Duration::ZERO, |start| start.elapsed());
        self.builder(time).try_send()
    }

    fn builder(&self, time: Duration) -> crate::MetricBuilder<'_, '_, Timer> {
        self.tags.iter().fold(self.client.time_with_tags(self.key, time), |builder, tag| builder.tagged(*tag))
    }
}

impl Drop for TimingGuard<'_> {
    fn drop(&mut self) {
        if let Some(start) = self.start.take() {
            self.builder(start.elapsed()).send();
        }
    }
}

impl fmt::Debug for TimingGuard<'_> {
    fn fmt(&self, f: &mut fmt::Formatter<'_>) -> fmt::Result {
        write!(f, "TimingGuard {{ key: {:?}, .. }}", self.key)
    }
}
