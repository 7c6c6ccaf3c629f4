// SPDX-License-Identifier: MIT OR Apache-2.0
//! The values of metrics, and the traits of the types that convert to one.
use crate::types::{ErrorKind, MetricError, MetricResult};
use std::fmt::{self, Write};
use std::time::Duration;

/// The value of a metric: one number, or several, which make one line with a colon between each two.
///
/// It prints as the text that the line has.
///
/// ```
/// use cadence::ext::MetricValue;
///
/// assert_eq!("-3", MetricValue::Signed(-3).to_string());
/// assert_eq!("0.5:2", MetricValue::PackedFloat(vec![0.5, 2.0]).to_string());
/// ```
#[derive(Debug, Clone)]
pub enum MetricValue {
    /// One signed number.
    Signed(i64),
    /// Several signed numbers.
    PackedSigned(Vec<i64>),
    /// One unsigned number.
    Unsigned(u64),
    /// Several unsigned numbers.
    PackedUnsigned(Vec<u64>),
    /// One float. A client refuses it if it is NaN, infinite or too large.
    Float(f64),
    /// Several floats. A client refuses them if one is NaN, infinite or too large.
    PackedFloat(Vec<f64>),
}

impl MetricValue {
    /// Returns whether it is one number below 0.
    pub(crate) fn is_below_zero(&self) -> bool {
        match self {
            MetricValue::Signed(number) => *number < 0,
            MetricValue::Float(number) => *number < 0.0,
            _ => false,
        }
    }
}

fn join<T: fmt::Display>(f: &mut fmt::Formatter<'_>, values: &[T]) -> fmt::Result {
    for (index, value) in values.iter().enumerate() {
        if index > 0 {
            f.write_char(':')?;
        }
        value.fmt(f)?;
    }
    Ok(())
}

impl fmt::Display for MetricValue {
    fn fmt(&self, f: &mut fmt::Formatter<'_>) -> fmt::Result {
        match self {
            MetricValue::Signed(value) => value.fmt(f),
            MetricValue::PackedSigned(values) => join(f, values),
            MetricValue::Unsigned(value) => value.fmt(f),
            MetricValue::PackedUnsigned(values) => join(f, values),
            MetricValue::Float(value) => value.fmt(f),
            MetricValue::PackedFloat(values) => join(f, values),
        }
    }
}

/// Returns a number of milliseconds or nanoseconds, if it fits 64 bits.
fn fitting(count: u128) -> MetricResult<u64> {
    u64::try_from(count).map_err(|_| MetricError::from((ErrorKind::InvalidInput, "u64 overflow")))
}

fn packed_durations(durations: &[Duration], unit: fn(&Duration) -> u128) -> MetricResult<MetricValue> {
    let counts: MetricResult<Vec<u64>> = durations.iter().map(|duration| fitting(unit(duration))).collect();
    Ok(MetricValue::PackedUnsigned(counts?))
}

macro_rules! value_trait {
    ($(#[$about:meta])* $name:ident: $($type:ty => |$value:ident| $to:expr;)*) => {
        $(#[$about])*
        ///
        /// Implement it for a type of your own, so that a client accepts this type.
        pub trait $name {
            /// Returns the value, or the error that the client's call then returns. The impls in this crate fail with
            /// `InvalidInput` if a duration doesn't fit 64 bits.
            fn try_to_value(self) -> MetricResult<MetricValue>;
        }
        $(impl $name for $type {
            fn try_to_value(self) -> MetricResult<MetricValue> {
                let $value = self;
                $to
            }
        })*
    };
}

value_trait! {
    /// The types that a counter accepts: `i64`, `i32`, `u64` and `u32`.
    ToCounterValue:
    i64 => |n| Ok(MetricValue::Signed(n));
    i32 => |n| Ok(MetricValue::Signed(n.into()));
    u64 => |n| Ok(MetricValue::Unsigned(n));
    u32 => |n| Ok(MetricValue::Unsigned(n.into()));
}

value_trait! {
    /// The types that a timer accepts: `u64` for milliseconds, `f64` for milliseconds with a fraction, which is rounded
    /// to six places, `Duration`, which is rounded down to whole milliseconds, and a `Vec` of one of these.
    ToTimerValue:
    u64 => |n| Ok(MetricValue::Unsigned(n));
    f64 => |x| Ok(MetricValue::Float(x));
    Vec<u64> => |ns| Ok(MetricValue::PackedUnsigned(ns));
    Vec<f64> => |xs| Ok(MetricValue::PackedFloat(xs));
    Duration => |d| Ok(MetricValue::Unsigned(fitting(d.as_millis())?));
    Vec<Duration> => |ds| packed_durations(&ds, Duration::as_millis);
}

value_trait! {
    /// The types that a gauge accepts: `u64` and `f64`.
    ToGaugeValue:
    u64 => |n| Ok(MetricValue::Unsigned(n));
    f64 => |x| Ok(MetricValue::Float(x));
}

value_trait! {
    /// The types that a change of a gauge and a gauge that may be below 0 accept: `i64`, `i32`, `u64`, `u32` and `f64`. The
    /// crate `cadence` doesn't have this trait.
    ToLevelValue:
    i64 => |n| Ok(MetricValue::Signed(n));
    i32 => |n| Ok(MetricValue::Signed(n.into()));
    u64 => |n| Ok(MetricValue::Unsigned(n));
    u32 => |n| Ok(MetricValue::Unsigned(n.into()));
    f64 => |x| Ok(MetricValue::Float(x));
}

value_trait! {
    /// The type that a meter accepts: `u64`.
    ToMeterValue:
    u64 => |n| Ok(MetricValue::Unsigned(n));
}

value_trait! {
    /// The types that a histogram accepts: `u64`, `f64`, `Duration`, which is sent in nanoseconds, and a `Vec` of one
    /// of these.
    ToHistogramValue:
    u64 => |n| Ok(MetricValue::Unsigned(n));
    f64 => |x| Ok(MetricValue::Float(x));
    Duration => |d| Ok(MetricValue::Unsigned(fitting(d.as_nanos())?));
    Vec<u64> => |ns| Ok(MetricValue::PackedUnsigned(ns));
    Vec<f64> => |xs| Ok(MetricValue::PackedFloat(xs));
    Vec<Duration> => |ds| packed_durations(&ds, Duration::as_nanos);
}

value_trait! {
    /// The types that a distribution accepts: `u64`, `f64`, and a `Vec` of either.
    ToDistributionValue:
    u64 => |n| Ok(MetricValue::Unsigned(n));
    f64 => |x| Ok(MetricValue::Float(x));
    Vec<u64> => |ns| Ok(MetricValue::PackedUnsigned(ns));
    Vec<f64> => |xs| Ok(MetricValue::PackedFloat(xs));
}

value_trait! {
    /// The type that a set accepts: `i64`.
    ToSetValue:
    i64 => |n| Ok(MetricValue::Signed(n));
}
