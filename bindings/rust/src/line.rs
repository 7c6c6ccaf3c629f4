// SPDX-License-Identifier: MIT OR Apache-2.0
//! The line of a metric.
use crate::format::{member_text, Numbers, Parts, Unmade};
use crate::layout::{Kind, Options, Settings, Tag};
use crate::raw::{decimal_of, Tags};
use crate::text::Text;
use crate::types::MetricResult;
use crate::value::MetricValue;
use std::fmt;

/// The value of a record.
#[derive(Debug)]
pub(crate) enum Value<'a> {
    /// Numbers.
    Numbers(MetricValue),
    /// A member of a set, which is a text.
    Member(&'a str),
    /// The number to which a gauge is set, which may be below 0.
    Level(MetricValue),
}

/// What a line is made of. The library formats it.
pub(crate) struct Record<'a> {
    settings: &'a Settings<'a>,
    kind: Kind,
    key: &'a str,
    pub(crate) value: Value<'a>,
    tags: Tags<'a>,
    /// The options but for the tags and the rate.
    pub(crate) options: Options<'a>,
    pub(crate) rate: Option<f64>,
}

impl<'a> Record<'a> {
    #[inline]
    pub(crate) fn new(settings: &'a Settings<'a>, kind: Kind, key: &'a str, value: Value<'a>) -> Self {
        Record { settings, kind, key, value, tags: Tags::new(), options: Options::new(), rate: None }
    }

    /// Returns the options with the tags, and without the rate.
    #[inline(always)]
    pub(crate) fn unrated_options(&self) -> Options<'_> {
        self.options.with_tags(self.tags.as_slice())
    }

    /// Returns the parts of the line with numbers.
    #[inline(always)]
    pub(crate) fn parts<'b>(&'b self, value: &'b MetricValue, options: &'b Options<'b>) -> Parts<'b> {
        let Record { settings, kind, key, .. } = *self;
        Parts { settings, kind, key, numbers: Numbers::of_value(value), options }
    }

    /// Returns the line. It fails with `InvalidInput` if a number is NaN, infinite or too large, if a line can't have the
    /// member of a set, or if the settings are strict and a text has a separator. A gauge that is set to a value below 0 has
    /// two lines with a newline between them.
    #[cold]
    pub(crate) fn text(&self) -> MetricResult<Text> {
        let mut options = self.unrated_options();
        if let Some(rate) = self.rate {
            options.set_rate(decimal_of(rate)?);
        }
        match &self.value {
            Value::Numbers(value) => self.parts(value, &options).text(),
            Value::Member(member) => member_text(self.settings, self.key, member, &options),
            Value::Level(value) => self.level_text(value, &options),
        }
    }

    /// Returns the line of numbers without a rate, which was not made in a room. It fails as `text` does.
    #[cold]
    #[inline(never)]
    pub(crate) fn text_after(&self, unmade: Unmade) -> MetricResult<Text> {
        match &self.value {
            Value::Numbers(value) => self.parts(value, &self.unrated_options()).text_after(unmade),
            _ => self.text(),
        }
    }

    /// Returns the line that sets a gauge, or two lines for a value below 0: a server reads a value with a sign as a change
    /// of the gauge, so the gauge is set to 0 first. A sink takes both as one text, so they are in the same packet.
    fn level_text(&self, value: &MetricValue, options: &Options<'_>) -> MetricResult<Text> {
        let line = self.parts(value, options).text()?;
        if !value.is_below_zero() {
            return Ok(line);
        }
        let zero = self.parts(&MetricValue::Unsigned(0), options).text()?;
        Ok(Text::from(format!("{}\n{}", zero.as_str(), line.as_str())))
    }

    /// Returns the text of the value.
    pub(crate) fn value(&self) -> String {
        match &self.value {
            Value::Numbers(value) | Value::Level(value) => value.to_string(),
            Value::Member(member) => (*member).to_string(),
        }
    }

    #[inline]
    pub(crate) fn add_tag(&mut self, tag: Tag<'a>) {
        self.tags.push(tag);
    }
}

impl fmt::Debug for Record<'_> {
    fn fmt(&self, f: &mut fmt::Formatter<'_>) -> fmt::Result {
        f.debug_struct("Record")
            .field("key", &self.key)
            .field("value", &self.value)
            .field("tags", &self.tags.as_slice())
            .finish_non_exhaustive()
    }
}
