// SPDX-License-Identifier: MIT OR Apache-2.0
//! Events and service checks of DogStatsD before they are sent.
use crate::client::{MetricBackend, StatsdClient};
use crate::layout::{CheckData, EventData, Settings, Tag};
use crate::packer::line_kept_by;
use crate::types::{Metric, MetricResult};
use std::fmt;

/// How much an event matters. A server takes an event without a priority for a `Normal` one.
#[derive(PartialEq, Eq, Debug, Hash, Clone, Copy)]
pub enum Priority {
    /// `low`
    Low = 1,
    /// `normal`
    Normal = 2,
}

/// What kind of news an event is. A server takes an event without an alert type for an `Info`.
#[derive(PartialEq, Eq, Debug, Hash, Clone, Copy)]
pub enum AlertType {
    /// `error`
    Error = 1,
    /// `warning`
    Warning = 2,
    /// `info`
    Info = 3,
    /// `success`
    Success = 4,
}

/// The state of a service.
#[derive(PartialEq, Eq, Debug, Hash, Clone, Copy)]
pub enum ServiceStatus {
    /// It works.
    Ok = 0,
    /// It works, but something is wrong.
    Warning = 1,
    /// It doesn't work.
    Critical = 2,
    /// Its state isn't known.
    Unknown = 3,
}

macro_rules! line {
    ($(#[$about:meta])* $name:ident) => {
        $(#[$about])*
        #[derive(PartialEq, Eq, Debug, Hash, Clone)]
        pub struct $name(String);

        impl Metric for $name {
            fn as_metric_str(&self) -> &str {
                &self.0
            }
        }
    };
}

line! {
    /// An event that was sent: its line, which `as_metric_str` returns.
    Event
}
line! {
    /// A service check that was sent: its line, which `as_metric_str` returns.
    ServiceCheck
}

/// The options that events and service checks share, and how they are sent.
macro_rules! builder {
    ($builder:ident of $line:ident) => {
        impl<'a> $builder<'a> {
            /// Adds a tag with a key and a value, after the client's tags and those that were added before.
            pub fn with_tag(mut self, key: &'a str, value: &'a str) -> Self {
                self.tags.push(Tag::new(Some(key), value));
                self
            }

            /// Adds a tag that is only a value, after the client's tags and those that were added before.
            pub fn with_tag_value(mut self, value: &'a str) -> Self {
                self.tags.push(Tag::new(None, value));
                self
            }

            /// Sets the time, in seconds since 1970. Without it a server takes the time at which the line comes.
            pub fn with_timestamp(mut self, timestamp: u64) -> Self {
                self.data.set_time(timestamp);
                self
            }

            /// Sets the name of the host. An empty one is left out.
            pub fn with_hostname(mut self, hostname: &'a str) -> Self {
                self.data.set_host(hostname);
                self
            }

            /// Sets the container, in place of the client's. An empty one leaves that.
            pub fn with_container_id(mut self, container_id: &'a str) -> Self {
                self.data.set_container(container_id);
                self
            }

            /// Sends the line, and returns it.
            ///
            /// It fails with `InvalidInput` if a text can't stand in the line, also if the client isn't strict; the text of
            /// the error says which one. A client that cleans texts sends a `_` in place of each character for which the
            /// text can't. It fails with `IoError` if the sink fails or memory runs out. The client can be used after an
            /// error.
            pub fn try_send(self) -> MetricResult<$line> {
                let client = self.client;
                client.check()?;
                let line = $line(self.line(client.settings())?);
                client.send_metric(&line)?;
                Ok(line)
            }

            /// Sends the line, and passes an error to the client's error handler. If the client has none, the error is
            /// dropped.
            pub fn send(self) {
                let client = self.client;
                if let Err(error) = self.try_send() {
                    client.consume_error(error);
                }
            }
        }

        impl fmt::Debug for $builder<'_> {
            fn fmt(&self, f: &mut fmt::Formatter<'_>) -> fmt::Result {
                f.debug_struct(stringify!($builder)).field("tags", &self.tags).finish_non_exhaustive()
            }
        }
    };
}

/// An event before it is sent: something that happened, with a title and a text that people read. Both may have any
/// character: a newline is escaped. No other text may have a `:`, a `,`, a `|` or a newline. The crate `cadence` doesn't
/// have this type.
///
/// ```
/// use cadence::{AlertType, Metric, NopMetricSink, StatsdClient};
///
/// let client = StatsdClient::builder("my.service", NopMetricSink).with_tag("env", "prod").build();
/// let event = client.event("Deploy", "version 2.1").with_alert_type(AlertType::Info).try_send().unwrap();
/// assert_eq!("_e{6,11}:Deploy|version 2.1|t:info|#env:prod", event.as_metric_str());
/// ```
#[must_use = "an event is sent by `send` or `try_send`"]
pub struct EventBuilder<'a> {
    client: &'a StatsdClient,
    data: EventData<'a>,
    tags: Vec<Tag<'a>>,
}

builder!(EventBuilder of Event);

impl<'a> EventBuilder<'a> {
    /// Sets the aggregation key: a server groups events that have the same one. An empty one is left out.
    pub fn with_aggregation_key(mut self, key: &'a str) -> Self {
        self.data.set_key(key);
        self
    }

    /// Sets the priority.
    pub fn with_priority(mut self, priority: Priority) -> Self {
        self.data.set_priority(priority as u32);
        self
    }

    /// Sets the source type, for example `jenkins`. An empty one is left out.
    pub fn with_source_type(mut self, source: &'a str) -> Self {
        self.data.set_source(source);
        self
    }

    /// Sets the alert type.
    pub fn with_alert_type(mut self, alert: AlertType) -> Self {
        self.data.set_alert(alert as u32);
        self
    }

    fn line(&self, settings: &Settings<'_>) -> MetricResult<String> {
        line_kept_by(settings, &self.data.with_tags(&self.tags))
    }
}

/// A service check before it is sent: the state of a service. Its message may have any character but a `|`: a newline and
/// `m:` are escaped. No other text may have a `:`, a `,`, a `|` or a newline. The crate `cadence` doesn't have this type.
///
/// ```
/// use cadence::{Metric, NopMetricSink, ServiceStatus, StatsdClient};
///
/// let client = StatsdClient::from_sink("my.service", NopMetricSink);
/// let check = client.service_check("web", ServiceStatus::Critical).with_message("no answer").try_send().unwrap();
/// assert_eq!("_sc|web|2|m:no answer", check.as_metric_str());
/// ```
#[must_use = "a service check is sent by `send` or `try_send`"]
pub struct ServiceCheckBuilder<'a> {
    client: &'a StatsdClient,
    data: CheckData<'a>,
    tags: Vec<Tag<'a>>,
}

builder!(ServiceCheckBuilder of ServiceCheck);

impl<'a> ServiceCheckBuilder<'a> {
    /// Sets the message, which says why the service is in this state. An empty one is left out.
    pub fn with_message(mut self, message: &'a str) -> Self {
        self.data.set_message(message);
        self
    }

    fn line(&self, settings: &Settings<'_>) -> MetricResult<String> {
        line_kept_by(settings, &self.data.with_tags(&self.tags))
    }
}

impl StatsdClient {
    /// Returns the builder of an event, to which tags and other options can be added before it is sent. Its line has the
    /// client's tags and container, but not the prefix.
    pub fn event<'a>(&'a self, title: &'a str, text: &'a str) -> EventBuilder<'a> {
        EventBuilder { client: self, data: EventData::new(title, text), tags: Vec::new() }
    }

    /// Returns the builder of a service check, to which tags and other options can be added before it is sent. Its line
    /// has the client's tags and container, but not the prefix.
    pub fn service_check<'a>(&'a self, name: &'a str, status: ServiceStatus) -> ServiceCheckBuilder<'a> {
        ServiceCheckBuilder { client: self, data: CheckData::new(name, status as u32), tags: Vec::new() }
    }
}
