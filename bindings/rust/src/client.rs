// SPDX-License-Identifier: MIT OR Apache-2.0
//! The client, its builder and the traits of its calls.
use crate::builder::MetricBuilder;
use crate::layout::{Kind, Separators, Settings, Tag};
use crate::line::{Record, Value};
use crate::raw::{call_refusal, Enrichment, OwnedSettings, OK};
use crate::sealed::Sealed;
use crate::sinks::MetricSink;
use crate::telemetry::Telemetry;
use crate::types::{
    Cardinality, Counter, Distribution, Gauge, Histogram, Meter, Metric, MetricError, MetricResult, OwnMetric, Set, Timer,
};
use crate::value::{
    MetricValue, ToCounterValue, ToDistributionValue, ToGaugeValue, ToHistogramValue, ToMeterValue, ToSetValue, ToTimerValue,
};
use std::fmt;
use std::panic::RefUnwindSafe;
use std::time::Duration;

mod send;

/// Makes a client from a prefix, a sink, default tags, a container and an error handler.
///
/// [`StatsdClient::builder`] returns a builder.
///
/// ```
/// use cadence::prelude::*;
/// use cadence::{Metric, NopMetricSink, StatsdClient};
///
/// let client = StatsdClient::builder("my.service", NopMetricSink)
///     .with_tag("env", "prod")
///     .with_error_handler(|error| eprintln!("metric lost: {error}"))
///     .build();
/// assert_eq!("my.service.visits:1|c|#env:prod", client.incr("visits").unwrap().as_metric_str());
/// ```
pub struct StatsdClientBuilder {
    client: StatsdClient,
    prefix: String,
    container: Option<String>,
    enrichment: Enrichment,
    separators: Separators,
    pub(crate) telemetry: Option<(String, Duration)>,
}

impl StatsdClientBuilder {
    /// Sets the handler that receives the errors of [`MetricBuilder::send`], in the caller's thread. Without a handler
    /// they are dropped.
    pub fn with_error_handler<F: Fn(MetricError) + Sync + Send + RefUnwindSafe + 'static>(mut self, errors: F) -> Self {
        self.client.errors = Box::new(errors);
        self
    }

    /// Adds a default tag with a key and a value. Every metric of the client has it, before the metric's own tags.
    pub fn with_tag<K: ToString, V: ToString>(mut self, key: K, value: V) -> Self {
        self.client.tags.push((Some(key.to_string()), value.to_string()));
        self
    }

    /// Adds a default tag that is only a value.
    pub fn with_tag_value<K: ToString>(mut self, value: K) -> Self {
        self.client.tags.push((None, value.to_string()));
        self
    }

    /// Sets the container of every metric of the client that doesn't set its own.
    pub fn with_container_id<K: ToString>(mut self, container_id: K) -> Self {
        self.container = Some(container_id.to_string());
        self
    }

    /// Sets the external data of every metric of the client: the value of the variable `DD_EXTERNAL_ENV`, by which a Datadog
    /// agent finds the container and the pod of the process. An empty text sets none. If the text has a `|` or a newline, the
    /// client refuses each call, also if it isn't strict, and [`try_build`](Self::try_build) returns the error at once. The
    /// crate `cadence` doesn't have this call.
    ///
    /// ```
    /// use cadence::prelude::*;
    /// use cadence::{Cardinality, Metric, NopMetricSink, StatsdClient};
    ///
    /// let client = StatsdClient::builder("my.service", NopMetricSink)
    ///     .with_external_data("it-false,cn-web,pu-4a")
    ///     .with_cardinality(Cardinality::Low)
    ///     .build();
    /// assert_eq!("my.service.visits:1|c|e:it-false,cn-web,pu-4a|card:low", client.incr("visits").unwrap().as_metric_str());
    /// ```
    pub fn with_external_data<K: ToString>(mut self, external: K) -> Self {
        self.enrichment.external = external.to_string();
        self
    }

    /// Sets which tags a Datadog agent adds to every metric of the client that doesn't set its own cardinality. The crate
    /// `cadence` doesn't have this call.
    pub fn with_cardinality(mut self, cardinality: Cardinality) -> Self {
        self.enrichment.cardinality = cardinality as u32;
        self
    }

    /// Makes the client strict: it refuses each call with a `:`, a `,`, a `|` or a newline in its key, in the key or the
    /// value of a tag, or in the container, with [`ErrorKind::InvalidInput`](crate::ErrorKind::InvalidInput)
    /// (`separator in a text`). Then nothing is sent, so no text can make, change or split a metric. The value of a tag
    /// with a key may have colons, as in `url:http://x`, because the first colon of a tag ends its key. A value that
    /// can't be sent is refused first. The crate `cadence` doesn't have this call.
    ///
    /// If the prefix, a default tag or the default container has such a character, the client refuses each call, and
    /// [`try_build`](Self::try_build) returns the error at once. Of this call and
    /// [`with_cleaned_texts`](Self::with_cleaned_texts) the last one counts.
    ///
    /// ```
    /// use cadence::prelude::*;
    /// use cadence::{NopMetricSink, StatsdClient};
    ///
    /// let client = StatsdClient::builder("my.service", NopMetricSink).with_strict_texts().build();
    /// assert!(client.incr("visits").is_ok());
    /// assert!(client.incr("visits:1|c\nforged").is_err());
    /// assert!(client.incr_with_tags("visits").with_tag("page", "home,admin:true").try_send().is_err());
    /// assert!(client.incr_with_tags("visits").with_tag("url", "http://x").try_send().is_ok());
    /// ```
    pub fn with_strict_texts(mut self) -> Self {
        self.separators = Separators::Refused;
        self
    }

    /// Makes a client that cleans texts: each `:`, `,`, `|` and newline in a key, in the key or the value of a tag, or in a
    /// container is sent as `_`. No call is refused for such a character, and no text can make, change or split a metric.
    /// The value of a tag with a key keeps its colons, as in `url:http://x`. The prefix, the default tags and the default
    /// container are cleaned too, and so is each text for which an event or a service check would be refused. A member of
    /// a set is not: it is refused as before. The crate `cadence` doesn't have this call. Of this call and
    /// [`with_strict_texts`](Self::with_strict_texts) the last one counts.
    ///
    /// ```
    /// use cadence::prelude::*;
    /// use cadence::{Metric, NopMetricSink, StatsdClient};
    ///
    /// let client = StatsdClient::builder("my.service", NopMetricSink).with_cleaned_texts().build();
    /// assert_eq!("my.service.visits_1_c_forged:1|c", client.incr("visits:1|c\nforged").unwrap().as_metric_str());
    /// let tagged = client.incr_with_tags("visits").with_tag("url", "http://x").with_tag_value("a:b").try_send();
    /// assert_eq!("my.service.visits:1|c|#url:http://x,a_b", tagged.unwrap().as_metric_str());
    /// ```
    pub fn with_cleaned_texts(mut self) -> Self {
        self.separators = Separators::Cleaned;
        self
    }

    /// Makes the client.
    pub fn build(mut self) -> StatsdClient {
        match self.settings_of(&self.prefix) {
            Ok(settings) => self.client.settings = settings,
            Err(status) => self.client.refusal = status,
        }
        if let Some((prefix, every)) = &self.telemetry {
            match self.settings_of(prefix) {
                Ok(settings) => self.client.telemetry = Some(Telemetry::new(settings, *every, &*self.client.sink)),
                Err(status) => self.client.refusal = status,
            }
        }
        self.client
    }

    /// Returns the settings of the client with a prefix, or the status of the library if they can't be made.
    fn settings_of(&self, prefix: &str) -> Result<OwnedSettings, u32> {
        let tags: Vec<Tag<'_>> = self.client.tags.iter().map(|(key, text)| Tag::new(key.as_deref(), text)).collect();
        OwnedSettings::new(prefix, &tags, self.container.as_deref(), &self.enrichment, self.separators)
    }

    /// Makes the client as [`build`](Self::build) does. It fails with `InvalidInput` if the client is strict and its
    /// prefix, a default tag or the default container has a separator, or if the external data have a `|` or a newline. The
    /// crate `cadence` doesn't have this call.
    pub fn try_build(self) -> MetricResult<StatsdClient> {
        let client = self.build();
        client.check()?;
        Ok(client)
    }
}

/// Makes metrics whose names begin with a prefix, and passes the line of each to a sink.
///
/// Threads may share a client by reference or in an `Arc`. A client takes no lock of its own, but its sink may take
/// one. The traits of [`prelude`](crate::prelude) have the calls of a client, and
/// [`MetricClient`](crate::MetricClient) has all of them.
///
/// ```
/// use std::sync::Arc;
/// use std::thread;
/// use cadence::prelude::*;
/// use cadence::{NopMetricSink, StatsdClient};
///
/// let client = Arc::new(StatsdClient::from_sink("my.service", NopMetricSink));
/// let shared = Arc::clone(&client);
/// thread::spawn(move || shared.incr("visits").unwrap()).join().unwrap();
/// client.time("startup", 1250).unwrap();
/// ```
pub struct StatsdClient {
    settings: OwnedSettings,
    sink: Box<dyn MetricSink + Sync + Send + RefUnwindSafe>,
    errors: Box<dyn Fn(MetricError) + Sync + Send + RefUnwindSafe>,
    tags: Vec<(Option<String>, String)>,
    /// The status that the library returned for the settings. If it isn't `OK`, each call fails with its error.
    refusal: u32,
    telemetry: Option<Telemetry>,
}

impl StatsdClient {
    /// Makes a client from a prefix and a sink, without default tags. An empty prefix prints nothing. Any other prefix
    /// loses the dots at its end, and is printed with one dot between it and the key.
    pub fn from_sink<S: MetricSink + Sync + Send + RefUnwindSafe + 'static>(prefix: &str, sink: S) -> Self {
        Self::builder(prefix, sink).build()
    }

    /// Returns the builder of a client with a prefix, as in [`from_sink`](Self::from_sink), and a sink.
    pub fn builder<S: MetricSink + Sync + Send + RefUnwindSafe + 'static>(prefix: &str, sink: S) -> StatsdClientBuilder {
        let (settings, sink, errors) = (OwnedSettings::default(), Box::new(sink), Box::new(|_| ()));
        let client = StatsdClient { settings, sink, errors, tags: Vec::new(), refusal: OK, telemetry: None };
        let separators = Separators::Kept;
        let (prefix, enrichment) = (prefix.to_string(), Enrichment::default());
        StatsdClientBuilder { client, prefix, container: None, enrichment, separators, telemetry: None }
    }

    /// Flushes the sink, which then sends the lines that it has buffered.
    ///
    /// It fails with `IoError` if the sink does. A buffered sink of this crate keeps the lines that it couldn't send.
    pub fn flush(&self) -> MetricResult<()> {
        if let Some(telemetry) = &self.telemetry {
            telemetry.report(&*self.sink);
        }
        Ok(self.sink.flush()?)
    }

    /// Sends what the sink has queued and buffered, and waits for that at most for this time, before the process ends. A
    /// queue takes no more lines afterwards. The crate `cadence` doesn't have this call.
    ///
    /// It fails with `IoError` if the time passes or if the sink fails. Then lines may be left that were not sent.
    pub fn close(&self, timeout: Duration) -> MetricResult<()> {
        Ok(self.sink.stop_and_wait(timeout)?)
    }

    /// Returns an error if the settings couldn't be made.
    #[inline]
    pub(crate) fn check(&self) -> MetricResult<()> {
        match self.refusal {
            OK => Ok(()),
            status => Err(call_refusal(status)),
        }
    }

    /// Returns the settings as the library reads them.
    pub(crate) fn settings(&self) -> &Settings<'_> {
        self.settings.lend()
    }

    #[inline]
    fn start<'a, T: OwnMetric + From<String>>(
        &'a self,
        kind: Kind,
        key: &'a str,
        value: MetricResult<MetricValue>,
    ) -> MetricBuilder<'a, 'a, T> {
        self.start_value(kind, key, value.map(Value::Numbers))
    }

    #[inline]
    pub(crate) fn start_value<'a, T: OwnMetric + From<String>>(
        &'a self,
        kind: Kind,
        key: &'a str,
        value: MetricResult<Value<'a>>,
    ) -> MetricBuilder<'a, 'a, T> {
        let record = value.map(|value| Record::new(self.settings.lend(), kind, key, value));
        MetricBuilder::new(record, self, Self::send_record)
    }
}

impl fmt::Debug for StatsdClient {
    fn fmt(&self, f: &mut fmt::Formatter<'_>) -> fmt::Result {
        let (prefix, tags) = (self.settings.prefix(), &self.tags);
        write!(f, "StatsdClient {{ prefix: {prefix:?}, sink: ..., errors: ..., tags: {tags:?} }}")
    }
}

/// Sends metrics that are already made, for example metrics of a type of your own. Only [`StatsdClient`] implements it.
///
/// ```
/// use cadence::ext::MetricBackend;
/// use cadence::{Metric, NopMetricSink, StatsdClient};
///
/// struct Event(String);
///
/// impl Metric for Event {
///     fn as_metric_str(&self) -> &str {
///         &self.0
///     }
/// }
///
/// let client = StatsdClient::from_sink("my.service", NopMetricSink);
/// if let Err(error) = client.send_metric(&Event("my.service.deployed:1|e".to_string())) {
///     client.consume_error(error);
/// }
/// ```
pub trait MetricBackend: Sealed {
    /// Passes the metric's text to the sink as it is: no prefix, tag or container is added.
    ///
    /// It fails with `IoError` if the sink does.
    fn send_metric<M: Metric>(&self, metric: &M) -> MetricResult<()>;

    /// Passes an error to the client's error handler.
    fn consume_error(&self, err: MetricError);
}

impl Sealed for StatsdClient {}

impl MetricBackend for StatsdClient {
    #[inline]
    fn send_metric<M: Metric>(&self, metric: &M) -> MetricResult<()> {
        self.send_text(metric.as_metric_str())
    }

    fn consume_error(&self, err: MetricError) {
        (self.errors)(err);
    }
}

macro_rules! calls {
    ($(#[$about:meta])* $calls:ident of $metric:ident, $value:ident: $plain:ident $tagged:ident) => {
        $(#[$about])*
        pub trait $calls<T: $value> {
            /// Sends a metric that has only the client's tags, and returns it. It fails as
            /// [`try_send`](MetricBuilder::try_send) does.
            #[inline]
            fn $plain(&self, key: &str, value: T) -> MetricResult<$metric> {
                self.$tagged(key, value).try_send()
            }

            /// Returns the builder of a metric, to which tags and other options can be added before it is sent.
            fn $tagged<'a>(&'a self, key: &'a str, value: T) -> MetricBuilder<'a, 'a, $metric>;
        }

        impl<T> $calls<T> for StatsdClient
        where
            T: $value,
        {
            #[inline]
            fn $plain(&self, key: &str, value: T) -> MetricResult<$metric> {
                self.send_plain(key, value.try_to_value()?)
            }

            #[inline]
            fn $tagged<'a>(&'a self, key: &'a str, value: T) -> MetricBuilder<'a, 'a, $metric> {
                self.start(Kind::$metric, key, value.try_to_value())
            }
        }
    };
}

calls! {
    /// Counters, which a server adds up. A value is an `i64`, `i32`, `u64` or `u32`.
    Counted of Counter, ToCounterValue: count count_with_tags
}
calls! {
    /// Timers. A value is a number of milliseconds as `u64`, one with a fraction as `f64`, which is rounded to six
    /// places, a `Duration`, which is rounded down to whole milliseconds, or a `Vec` of one of these, which makes one
    /// line. Some [floats](crate#floats) are refused.
    Timed of Timer, ToTimerValue: time time_with_tags
}
calls! {
    /// Gauges, whose value stays until the next one. A value is a `u64` or `f64`. Some [floats](crate#floats) are refused.
    Gauged of Gauge, ToGaugeValue: gauge gauge_with_tags
}
calls! {
    /// Meters, whose rate a server measures. A value is a `u64`.
    Metered of Meter, ToMeterValue: meter meter_with_tags
}
calls! {
    /// Histograms: a server computes the distribution of their values. A value is a `u64`, an `f64`, a `Duration`,
    /// which is sent in nanoseconds, or a `Vec` of one of these, which makes one line. Some [floats](crate#floats) are
    /// refused.
    Histogrammed of Histogram, ToHistogramValue: histogram histogram_with_tags
}
calls! {
    /// Distributions, which a server computes over all hosts. A value is a `u64`, an `f64`, or a `Vec` of either, which
    /// makes one line. Some [floats](crate#floats) are refused.
    Distributed of Distribution, ToDistributionValue: distribution distribution_with_tags
}
calls! {
    /// Sets, whose distinct values a server counts. A value is an `i64`.
    Setted of Set, ToSetValue: set set_with_tags
}

/// Counters of 1 and -1.
pub trait CountedExt: Counted<i64> {
    /// Adds 1 to a counter, as [`Counted::count`] does with the value 1.
    fn incr(&self, key: &str) -> MetricResult<Counter> {
        self.count(key, 1)
    }

    /// Returns the builder of a counter of 1, to which tags and other options can be added.
    fn incr_with_tags<'a>(&'a self, key: &'a str) -> MetricBuilder<'a, 'a, Counter> {
        self.count_with_tags(key, 1)
    }

    /// Subtracts 1 from a counter, as [`Counted::count`] does with the value -1.
    fn decr(&self, key: &str) -> MetricResult<Counter> {
        self.count(key, -1)
    }

    /// Returns the builder of a counter of -1, to which tags and other options can be added.
    fn decr_with_tags<'a>(&'a self, key: &'a str) -> MetricBuilder<'a, 'a, Counter> {
        self.count_with_tags(key, -1)
    }
}

impl CountedExt for StatsdClient {}
