// SPDX-License-Identifier: MIT OR Apache-2.0
//! The metric types, and the errors of calls.
use crate::layout::{Kind, Separators, Settings};
use crate::line::{Record, Value};
use crate::text::Text;
use crate::value::MetricValue;
use std::alloc::{handle_alloc_error, Layout};
use std::{error, fmt, io};

/// Which tags of its container a Datadog agent adds to a metric. Tags of more values make more series, which a server
/// stores. The crate `cadence` doesn't have this type.
#[derive(Debug, Clone, Copy, PartialEq, Eq, Hash)]
pub enum Cardinality {
    /// `none`: no tags.
    NoTags = 1,
    /// `low`: tags of few values, such as the name of an image.
    Low = 2,
    /// `orchestrator`: also those of a pod or a task.
    Orchestrator = 3,
    /// `high`: also those of a single container.
    High = 4,
}

/// A metric that has a line of the Statsd format.
pub trait Metric {
    /// Returns the line, without a newline.
    fn as_metric_str(&self) -> &str;
}

/// A metric of this crate, which is made of its text.
pub(crate) trait OwnMetric: Metric + Sized {
    const KIND: Kind;

    fn of_text(text: Text) -> Self;
}

/// Returns the line of a metric's constructor. If memory runs out, the process ends, as it does for a `Vec`.
fn line_of(prefix: &str, kind: Kind, key: &str, value: MetricValue) -> Text {
    let settings = Settings::new(prefix, "", None, Separators::Kept);
    let record = Record::new(&settings, kind, key, Value::Numbers(value));
    match record.text().map_err(|error| error.kind()) {
        Ok(text) => text,
        Err(ErrorKind::InvalidInput) => format!("{prefix}{key}:{}|{}", record.value(), kind.text()).into(),
        Err(ErrorKind::IoError) => handle_alloc_error(Layout::new::<String>()),
    }
}

macro_rules! metric {
    ($(#[$about:meta])* $name:ident: $($new:ident($type:ty => $value:ident))*) => {
        $(#[$about])*
        ///
        /// A metric is its line, which `as_metric_str` returns. It is made without a client by a constructor, which prints the
        /// prefix as it is: no dot is added after it. A constructor can't return an error, so it prints a float that a client
        /// refuses as Rust prints it, for example as `NaN`.
        #[derive(PartialEq, Eq, Debug, Hash, Clone)]
        pub struct $name {
            repr: Text,
        }

        impl $name {
            $(
                #[doc = concat!("Makes a metric of a prefix, a key and a value of the type `", stringify!($type), "`.")]
                pub fn $new(prefix: &str, key: &str, value: $type) -> Self {
                    Self::of_text(line_of(prefix, Kind::$name, key, MetricValue::$value(value)))
                }
            )*
        }

        impl From<String> for $name {
            fn from(repr: String) -> Self {
                Self::of_text(repr.into())
            }
        }

        impl OwnMetric for $name {
            const KIND: Kind = Kind::$name;

            #[inline]
            fn of_text(repr: Text) -> Self {
                $name { repr }
            }
        }

        impl Metric for $name {
            #[inline]
            fn as_metric_str(&self) -> &str {
                self.repr.as_str()
            }
        }
    };
}

metric! {
    /// A counter, which a server adds up.
    ///
    /// ```
    /// use cadence::{Counter, Metric};
    ///
    /// assert_eq!("my.service.visits:4|c", Counter::new("my.service.", "visits", 4).as_metric_str());
    /// ```
    Counter: new(i64 => Signed)
}
metric! {
    /// A time in milliseconds.
    Timer: new(u64 => Unsigned)
}
metric! {
    /// The value of a gauge at a moment. A server keeps it until the next one.
    Gauge: new(u64 => Unsigned) new_f64(f64 => Float)
}
metric! {
    /// A count of events for a meter. A server measures the rate of the events.
    Meter: new(u64 => Unsigned)
}
metric! {
    /// A value for a histogram. A server computes the distribution of the values.
    Histogram: new(u64 => Unsigned) new_f64(f64 => Float)
}
metric! {
    /// A value for a distribution, which a server computes over all hosts.
    Distribution: new(u64 => Unsigned) new_f64(f64 => Float)
}
metric! {
    /// A member of a set. A server counts the distinct members.
    Set: new(i64 => Signed)
}

/// The kind of an error.
#[derive(PartialEq, Eq, Debug, Hash, Clone, Copy)]
pub enum ErrorKind {
    /// The value can't be sent, because a duration doesn't fit 64 bits, or a float is NaN, infinite or too large; or the
    /// client is strict and a text has a separator; or the name that a sink was made for has no address.
    InvalidInput,
    /// A sink, a socket or a lookup failed, or memory ran out. The error's `source` says why.
    IoError,
}

/// Why a metric was not sent, or why a sink was not made. A client can be used after each of its errors.
///
/// ```
/// use std::error::Error;
/// use cadence::{ErrorKind, MetricError};
///
/// let error = MetricError::from(std::io::Error::other("the socket is gone"));
/// assert_eq!(ErrorKind::IoError, error.kind());
/// assert_eq!("the socket is gone", error.source().unwrap().to_string());
/// ```
#[derive(Debug)]
pub struct MetricError {
    repr: Fault,
}

#[derive(Debug)]
enum Fault {
    WithDescription(ErrorKind, &'static str),
    IoError(io::Error),
}

/// The result of a call: what it made, or its error.
pub type MetricResult<T> = Result<T, MetricError>;

impl MetricError {
    /// Returns the kind of the error.
    pub fn kind(&self) -> ErrorKind {
        match &self.repr {
            Fault::WithDescription(kind, _) => *kind,
            Fault::IoError(_) => ErrorKind::IoError,
        }
    }
}

impl From<io::Error> for MetricError {
    fn from(error: io::Error) -> Self {
        MetricError { repr: Fault::IoError(error) }
    }
}

impl From<(ErrorKind, &'static str)> for MetricError {
    fn from((kind, text): (ErrorKind, &'static str)) -> Self {
        MetricError { repr: Fault::WithDescription(kind, text) }
    }
}

impl fmt::Display for MetricError {
    fn fmt(&self, f: &mut fmt::Formatter<'_>) -> fmt::Result {
        match &self.repr {
            Fault::WithDescription(_, text) => text.fmt(f),
            Fault::IoError(error) => error.fmt(f),
        }
    }
}

impl error::Error for MetricError {
    fn source(&self) -> Option<&(dyn error::Error + 'static)> {
        match &self.repr {
            Fault::WithDescription(..) => None,
            Fault::IoError(error) => Some(error),
        }
    }

    // The deprecated method returns the text of the error, as it does in the crate `cadence`.
    #[allow(deprecated)]
    fn description(&self) -> &str {
        match &self.repr {
            Fault::WithDescription(_, text) => text,
            Fault::IoError(error) => error.description(),
        }
    }
}
