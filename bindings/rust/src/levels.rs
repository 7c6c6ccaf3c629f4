// SPDX-License-Identifier: MIT OR Apache-2.0
//! Calls whose value the crate `cadence` can't send: members of sets that are texts, changes of gauges, and gauges below 0.
use crate::builder::MetricBuilder;
use crate::client::StatsdClient;
use crate::layout::Kind;
use crate::line::Value;
use crate::types::{Gauge, MetricResult, Set};
use crate::value::ToLevelValue;

/// Calls that the crate `cadence` doesn't have.
impl StatsdClient {
    /// Adds a text to a set, whose distinct values a server counts, and returns the metric. It fails as
    /// [`try_send`](MetricBuilder::try_send) does: with `InvalidInput` if the member is empty, or has a colon, a bar or a
    /// newline, because each of these would end it in the line.
    ///
    /// ```
    /// use cadence::{Metric, NopMetricSink, StatsdClient};
    ///
    /// let client = StatsdClient::from_sink("my.service", NopMetricSink);
    /// assert_eq!("my.service.users:alice|s", client.set_text("users", "alice").unwrap().as_metric_str());
    /// assert!(client.set_text("users", "a:b").is_err());
    /// ```
    pub fn set_text(&self, key: &str, member: &str) -> MetricResult<Set> {
        self.set_text_with_tags(key, member).try_send()
    }

    /// Returns the builder of the metric that [`set_text`](Self::set_text) sends, to which tags and other options can be
    /// added.
    pub fn set_text_with_tags<'a>(&'a self, key: &'a str, member: &'a str) -> MetricBuilder<'a, 'a, Set> {
        self.start_value(Kind::Set, key, Ok(Value::Member(member)))
    }

    /// Changes a gauge by a number, and returns the metric, which has the number with its sign. A number is an `i64`, `i32`,
    /// `u64`, `u32` or `f64`. Some [floats](crate#floats) are refused.
    ///
    /// ```
    /// use cadence::{Metric, NopMetricSink, StatsdClient};
    ///
    /// let client = StatsdClient::from_sink("my.service", NopMetricSink);
    /// assert_eq!("my.service.load:+3|g", client.change("load", 3).unwrap().as_metric_str());
    /// assert_eq!("my.service.load:-0.5|g", client.change("load", -0.5).unwrap().as_metric_str());
    /// ```
    pub fn change<T: ToLevelValue>(&self, key: &str, by: T) -> MetricResult<Gauge> {
        self.change_with_tags(key, by).try_send()
    }

    /// Returns the builder of the metric that [`change`](Self::change) sends, to which tags and other options can be added.
    pub fn change_with_tags<'a, T: ToLevelValue>(&'a self, key: &'a str, by: T) -> MetricBuilder<'a, 'a, Gauge> {
        self.start_value(Kind::Change, key, by.try_to_value().map(Value::Numbers))
    }

    /// Sets a gauge to a number, also to one below 0, and returns the metric. A number is one that
    /// [`change`](Self::change) takes.
    ///
    /// A server reads a value with a sign as a change of the gauge, so a gauge below 0 is set to 0 first. The metric then
    /// has two lines with a newline between them. A sink takes them as one text, so they are in the same packet or not sent
    /// at all.
    ///
    /// ```
    /// use cadence::{Metric, NopMetricSink, StatsdClient};
    ///
    /// let client = StatsdClient::from_sink("my.service", NopMetricSink);
    /// let below = client.level("load", -5).unwrap();
    /// assert_eq!("my.service.load:0|g\nmy.service.load:-5|g", below.as_metric_str());
    /// assert_eq!("my.service.load:5|g", client.level("load", 5).unwrap().as_metric_str());
    /// ```
    pub fn level<T: ToLevelValue>(&self, key: &str, value: T) -> MetricResult<Gauge> {
        self.level_with_tags(key, value).try_send()
    }

    /// Returns the builder of the metric that [`level`](Self::level) sends, to which tags and other options can be
    /// added.
    pub fn level_with_tags<'a, T: ToLevelValue>(&'a self, key: &'a str, value: T) -> MetricBuilder<'a, 'a, Gauge> {
        self.start_value(Kind::Gauge, key, value.try_to_value().map(Value::Level))
    }
}
