// SPDX-License-Identifier: MIT OR Apache-2.0
//! The structs that are passed to the library, in the layout of `cadence.h`.
use crate::raw::Slice;
use crate::types::Cardinality;
use std::{fmt, ptr};

/// A kind of metric: the number and the text that the library has for it.
#[derive(Debug, Clone, Copy, PartialEq, Eq)]
pub(crate) enum Kind {
    Counter = 0,
    Timer = 1,
    Gauge = 2,
    Meter = 3,
    Histogram = 4,
    Set = 5,
    Distribution = 6,
    /// A change of a gauge, in place of a kind.
    Change = 7,
}

impl Kind {
    /// Returns the text of the kind in a line, for a kind whose values can be floats.
    pub(crate) fn text(self) -> &'static str {
        match self {
            Kind::Histogram => "h",
            Kind::Distribution => "d",
            _ => "g",
        }
    }
}

/// A packer or sums, or none. Only the library uses its fields.
#[repr(C)]
pub(crate) struct Handle {
    at: *mut u8,
    open: bool,
}

impl Handle {
    pub(crate) const CLOSED: Handle = Handle { at: ptr::null_mut(), open: false };
}

/// A tag as the library reads it. Its key is empty if it has none.
#[repr(C)]
#[derive(Clone, Copy)]
pub(crate) struct Tag<'a> {
    key: Slice<'a, u8>,
    text: Slice<'a, u8>,
    keyed: bool,
}

impl<'a> Tag<'a> {
    #[inline]
    pub(crate) fn new(key: Option<&'a str>, text: &'a str) -> Tag<'a> {
        let bytes = key.unwrap_or("").as_bytes();
        Tag { key: Slice::new(bytes), text: Slice::new(text.as_bytes()), keyed: key.is_some() }
    }
}

impl fmt::Debug for Tag<'_> {
    fn fmt(&self, f: &mut fmt::Formatter<'_>) -> fmt::Result {
        let [key, text] = [self.key, self.text].map(|text| String::from_utf8_lossy(text.get()));
        (self.keyed.then_some(key), text).fmt(f)
    }
}

/// What each line has, as the library reads it: texts that the library has made, and a container.
#[repr(C)]
#[derive(Clone, Copy)]
pub(crate) struct Settings<'a> {
    prefix: Slice<'a, u8>,
    tags: Slice<'a, u8>,
    container: Slice<'a, u8>,
    contained: bool,
    strict: bool,
    cleaned: bool,
    external: Slice<'a, u8>,
    cardinality: u32,
}

/// What becomes of a separator in a text of a call.
#[derive(Clone, Copy, PartialEq, Eq)]
pub(crate) enum Separators {
    /// It is printed as it is.
    Kept,
    /// The call is refused.
    Refused,
    /// It is printed as an underscore.
    Cleaned,
}

impl Separators {
    /// Returns whether settings are strict, and whether they clean texts.
    #[inline]
    pub(crate) fn words(self) -> (bool, bool) {
        (self == Separators::Refused, self == Separators::Cleaned)
    }
}

impl<'a> Settings<'a> {
    #[inline]
    pub(crate) fn new(prefix: &'a str, tags: &'a str, container: Option<&'a str>, separators: Separators) -> Settings<'a> {
        let [prefix, tags, text] = [prefix, tags, container.unwrap_or("")].map(|text| Slice::new(text.as_bytes()));
        let (strict, cleaned) = separators.words();
        let (external, cardinality) = (Slice::new(&[]), 0);
        Settings { prefix, tags, container: text, contained: container.is_some(), strict, cleaned, external, cardinality }
    }

    /// Sets the external data, or none if the text is empty, and the number of the cardinality.
    pub(crate) fn set_enrichment(&mut self, external: &'a str, cardinality: u32) {
        (self.external, self.cardinality) = (Slice::new(external.as_bytes()), cardinality);
    }
}

/// The names of the variables of the environment.
pub(crate) const VARIABLES: [&str; 20] = [
    "DD_DOGSTATSD_URL",
    "DD_DOGSTATSD_SOCKET",
    "DD_AGENT_HOST",
    "DD_DOGSTATSD_PORT",
    "STATSD_HOST",
    "STATSD_PORT",
    "DD_ENV",
    "DD_SERVICE",
    "DD_VERSION",
    "DD_TAGS",
    "DD_ENTITY_ID",
    "DD_DOGSTATSD_DISABLE",
    "STATSD_ENABLED",
    "STATSD_MAXUDPSIZE",
    "STATSD_PREFIX",
    "DD_ORIGIN_DETECTION_ENABLED",
    "STATSD_IPV6",
    "DD_EXTERNAL_ENV",
    "DD_CARDINALITY",
    "DATADOG_CARDINALITY",
];

/// The number of the variable that makes the container and the external data of the process the default ones.
pub(crate) const ORIGIN: usize = 15;

/// The values of the variables of the environment, in the order of their names. One that isn't set is empty.
#[repr(C)]
pub(crate) struct Variables<'a> {
    values: [Slice<'a, u8>; VARIABLES.len()],
}

impl<'a> Variables<'a> {
    pub(crate) fn new(values: &'a [Vec<u8>; VARIABLES.len()]) -> Variables<'a> {
        Variables { values: values.each_ref().map(|value| Slice::new(value)) }
    }
}

/// The number `mantissa` divided by 10 to the power of `places`, which is at most 30.
#[repr(C)]
#[derive(Clone, Copy, Debug, Default, PartialEq, Eq)]
pub(crate) struct Decimal {
    mantissa: i64,
    places: u8,
}

const NO_RATE: Decimal = Decimal { mantissa: 0, places: 0 };

/// What a call adds to its metric.
#[repr(C)]
#[derive(Clone, Copy)]
pub(crate) struct Options<'a> {
    tags: Slice<'a, Tag<'a>>,
    container: Slice<'a, u8>,
    rate: Decimal,
    time: u64,
    contained: bool,
    rated: bool,
    timed: bool,
    known: bool,
    cardinality: u32,
}

impl<'a> Options<'a> {
    /// Returns options that add nothing.
    #[inline]
    pub(crate) const fn new() -> Self {
        Options {
            tags: Slice::new(&[]),
            container: Slice::new(&[]),
            rate: NO_RATE,
            time: 0,
            contained: false,
            rated: false,
            timed: false,
            // each text is a `&str`, so it is UTF-8
            known: true,
            cardinality: 0,
        }
    }

    /// Returns the same options with these tags, and without a rate.
    #[inline]
    pub(crate) fn with_tags<'b>(&'b self, tags: &'b [Tag<'a>]) -> Options<'b> {
        Options { tags: Slice::new(tags), rate: NO_RATE, ..*self }
    }

    pub(crate) fn set_container(&mut self, container: &'a str) {
        (self.container, self.contained) = (Slice::new(container.as_bytes()), true);
    }

    pub(crate) fn set_time(&mut self, time: u64) {
        (self.time, self.timed) = (time, true);
    }

    pub(crate) fn set_cardinality(&mut self, cardinality: Cardinality) {
        self.cardinality = cardinality as u32;
    }

    #[cold]
    #[inline(never)]
    pub(crate) fn set_rate(&mut self, rate: Decimal) {
        (self.rate, self.rated) = (rate, true);
    }
}

/// An event as the library reads it. A text that is empty is left out, but for the title and the text.
#[repr(C)]
#[derive(Clone, Copy)]
pub(crate) struct EventData<'a> {
    title: Slice<'a, u8>,
    text: Slice<'a, u8>,
    host: Slice<'a, u8>,
    key: Slice<'a, u8>,
    source: Slice<'a, u8>,
    container: Slice<'a, u8>,
    tags: Slice<'a, Tag<'a>>,
    time: u64,
    priority: u32,
    alert: u32,
    timed: bool,
}

/// A service check as the library reads it. A text that is empty is left out, but for the name.
#[repr(C)]
#[derive(Clone, Copy)]
pub(crate) struct CheckData<'a> {
    name: Slice<'a, u8>,
    host: Slice<'a, u8>,
    message: Slice<'a, u8>,
    container: Slice<'a, u8>,
    tags: Slice<'a, Tag<'a>>,
    time: u64,
    status: u32,
    timed: bool,
}

macro_rules! setters {
    ($data:ident: $($set:ident of $field:ident)*) => {
        impl<'a> $data<'a> {
            $(pub(crate) fn $set(&mut self, text: &'a str) {
                self.$field = Slice::new(text.as_bytes());
            })*

            pub(crate) fn set_time(&mut self, time: u64) {
                (self.time, self.timed) = (time, true);
            }

            /// Returns the same with these tags.
            pub(crate) fn with_tags<'b>(&'b self, tags: &'b [Tag<'a>]) -> $data<'b> {
                $data { tags: Slice::new(tags), ..*self }
            }
        }
    };
}

setters!(EventData: set_host of host set_key of key set_source of source set_container of container);
setters!(CheckData: set_host of host set_message of message set_container of container);

impl<'a> EventData<'a> {
    pub(crate) fn new(title: &'a str, text: &'a str) -> Self {
        let (none, [title, text]) = (Slice::new(&[]), [title, text].map(|text| Slice::new(text.as_bytes())));
        EventData {
            title,
            text,
            host: none,
            key: none,
            source: none,
            container: none,
            tags: Slice::new(&[]),
            time: 0,
            priority: 0,
            alert: 0,
            timed: false,
        }
    }

    pub(crate) fn set_priority(&mut self, priority: u32) {
        self.priority = priority;
    }

    pub(crate) fn set_alert(&mut self, alert: u32) {
        self.alert = alert;
    }
}

impl<'a> CheckData<'a> {
    pub(crate) fn new(name: &'a str, status: u32) -> Self {
        let (name, none) = (Slice::new(name.as_bytes()), Slice::new(&[]));
        CheckData { name, host: none, message: none, container: none, tags: Slice::new(&[]), time: 0, status, timed: false }
    }
}

#[cfg(test)]
#[path = "../tests/unit/layout.rs"]
mod tests;
