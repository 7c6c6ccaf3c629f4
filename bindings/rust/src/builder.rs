// SPDX-License-Identifier: MIT OR Apache-2.0
//! A metric before it is sent.
use crate::client::{MetricBackend, StatsdClient};
use crate::layout::Tag;
use crate::line::Record;
use crate::sample;
use crate::types::{Cardinality, ErrorKind, Metric, MetricResult};
use std::fmt;

/// A metric before it is sent. Options can be added to it: tags, a container, a cardinality, a time and a sampling rate.
///
/// The calls of a client that end in `_with_tags` make a builder, and [`try_send`](Self::try_send) or
/// [`send`](Self::send) sends its metric. Texts are printed as they are, with any separators in them, unless the client is
/// [strict](crate::StatsdClientBuilder::with_strict_texts) or
/// [cleans them](crate::StatsdClientBuilder::with_cleaned_texts).
///
/// ```
/// use cadence::prelude::*;
/// use cadence::{Metric, NopMetricSink, StatsdClient};
///
/// let client = StatsdClient::from_sink("my.service", NopMetricSink);
/// let counter = client
///     .count_with_tags("visits", 1)
///     .with_tag("page", "home")
///     .with_tag_value("beta")
///     .try_send()
///     .unwrap();
/// assert_eq!("my.service.visits:1|c|#page:home,beta", counter.as_metric_str());
/// ```
#[must_use = "a metric is sent by `send` or `try_send`"]
pub struct MetricBuilder<'m, 'c, T: Metric + From<String>> {
    record: MetricResult<Record<'m>>,
    client: &'c StatsdClient,
    // Whether the metric is sent, if nothing is wrong with it.
    is_chosen: bool,
    send: fn(&StatsdClient, Record<'_>) -> MetricResult<T>,
}

impl<'m, 'c, T: Metric + From<String>> MetricBuilder<'m, 'c, T> {
    #[inline]
    pub(crate) fn new(
        record: MetricResult<Record<'m>>,
        client: &'c StatsdClient,
        send: fn(&StatsdClient, Record<'_>) -> MetricResult<T>,
    ) -> Self {
        MetricBuilder { record, client, is_chosen: true, send }
    }

    #[inline]
    fn with(mut self, add: impl FnOnce(&mut Record<'m>)) -> Self {
        if let Ok(record) = &mut self.record {
            add(record);
        }
        self
    }

    #[inline]
    pub(crate) fn tagged(self, tag: Tag<'m>) -> Self {
        self.with(|record| record.add_tag(tag))
    }

    /// Adds a tag with a key and a value, after the client's tags and those that were added before.
    #[inline]
    pub fn with_tag(self, key: &'m str, value: &'m str) -> Self {
        self.tagged(Tag::new(Some(key), value))
    }

    /// Adds a tag that is only a value, after the client's tags and those that were added before.
    #[inline]
    pub fn with_tag_value(self, value: &'m str) -> Self {
        self.tagged(Tag::new(None, value))
    }

    /// Sets the container, in place of the client's.
    pub fn with_container_id(self, container_id: &'m str) -> Self {
        self.with(|record| record.options.set_container(container_id))
    }

    /// Sets which tags a Datadog agent adds to the metric, in place of the client's cardinality. The crate `cadence` doesn't
    /// have this call.
    ///
    /// ```
    /// use cadence::prelude::*;
    /// use cadence::{Cardinality, Metric, NopMetricSink, StatsdClient};
    ///
    /// let client = StatsdClient::from_sink("my.service", NopMetricSink);
    /// let counter = client.incr_with_tags("visits").with_cardinality(Cardinality::Low).try_send().unwrap();
    /// assert_eq!("my.service.visits:1|c|card:low", counter.as_metric_str());
    /// ```
    pub fn with_cardinality(self, cardinality: Cardinality) -> Self {
        self.with(|record| record.options.set_cardinality(cardinality))
    }

    /// Sets the time of the metric, in seconds since 1970.
    pub fn with_timestamp(self, timestamp: u64) -> Self {
        self.with(|record| record.options.set_time(timestamp))
    }

    /// Sets the sampling rate, by which a server scales a count. The client doesn't sample: it sends every call, so the
    /// caller has to make only this share of its calls. [`with_sampling`](Self::with_sampling) samples.
    ///
    /// A rate that is NaN, infinite or at least 2 to the power of 63 makes the call fail with `InvalidInput`.
    pub fn with_sampling_rate(self, rate: f64) -> Self {
        self.with(|record| record.rate = Some(rate))
    }

    /// Sends the metric only with this chance, at random, and with this rate as its sampling rate, by which a server scales
    /// a count. With a rate of 1 it is always sent, and has no sampling rate. The crate `cadence` doesn't have this call.
    ///
    /// If the metric isn't chosen, nothing is sent, and [`try_send`](Self::try_send) returns a metric with an empty text. A
    /// rate that isn't above 0 and at most 1 makes the call fail with `InvalidInput`.
    ///
    /// ```
    /// use cadence::prelude::*;
    /// use cadence::{Metric, NopMetricSink, StatsdClient};
    ///
    /// let client = StatsdClient::from_sink("my.service", NopMetricSink);
    /// let counter = client.incr_with_tags("visits").with_sampling(0.1).try_send().unwrap();
    /// assert!(["", "my.service.visits:1|c|@0.1"].contains(&counter.as_metric_str()));
    /// assert!(client.incr_with_tags("visits").with_sampling(1.5).try_send().is_err());
    /// ```
    pub fn with_sampling(mut self, rate: f64) -> Self {
        if !(rate > 0.0 && rate <= 1.0) {
            if self.record.is_ok() {
                self.record = Err((ErrorKind::InvalidInput, "a sampling rate is above 0 and at most 1").into());
            }
            return self;
        }
        self.is_chosen = sample::passes(rate);
        self.with(|record| record.rate = (rate < 1.0).then_some(rate))
    }

    /// Sends the metric, and returns it.
    ///
    /// It fails with `InvalidInput` if the value doesn't fit, if a float is NaN, infinite or too large, if a line can't have
    /// the member of a set, or if the client is [strict](crate::StatsdClientBuilder::with_strict_texts) and a text has a
    /// separator, and with `IoError` if the sink fails or memory runs out. The client can be used after an error.
    #[inline]
    pub fn try_send(self) -> MetricResult<T> {
        match self.record {
            Ok(record) if self.is_chosen => (self.send)(self.client, record),
            Ok(_) => Ok(T::from(String::new())),
            Err(error) => Err(error),
        }
    }

    /// Sends the metric, and passes an error to the client's error handler. If the client has none, the error is
    /// dropped.
    pub fn send(self) {
        let client = self.client;
        if let Err(error) = self.try_send() {
            client.consume_error(error);
        }
    }
}

impl<T: Metric + From<String>> fmt::Debug for MetricBuilder<'_, '_, T> {
    fn fmt(&self, f: &mut fmt::Formatter<'_>) -> fmt::Result {
        let MetricBuilder { record, client, is_chosen, .. } = self;
        f.debug_struct("MetricBuilder").field("record", record).field("client", client).field("is_chosen", is_chosen).finish()
    }
}
