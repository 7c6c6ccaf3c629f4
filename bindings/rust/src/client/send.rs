// SPDX-License-Identifier: MIT OR Apache-2.0
//! How a call makes its line and sends it.
//!
//! A line is made in a room on the stack, is given to the sink from there, and is copied once: into the metric that the call
//! returns. Calls without options make no record.
use super::StatsdClient;
use crate::format::{Number, Numbers, Parts, Unmade};
use crate::layout::{Kind, Options};
use crate::line::{Record, Value};
use crate::text::{Line, Room, Text};
use crate::types::{MetricResult, OwnMetric};
use crate::value::MetricValue;

impl StatsdClient {
    /// Makes the line of a record, sends it, and returns its metric.
    #[inline(never)]
    pub(crate) fn send_record<T: OwnMetric>(&self, record: Record<'_>) -> MetricResult<T> {
        match &record.value {
            Value::Numbers(value) if record.rate.is_none() => {
                let mut room = Room::new();
                let line = record.parts(value, &record.unrated_options()).line(&mut room);
                self.send_line(line, |unmade| record.text_after(unmade))
            }
            _ => self.send_made(record.text()),
        }
    }

    /// Makes the line of a value without options, sends it, and returns its metric.
    #[inline(always)]
    pub(super) fn send_plain<T: OwnMetric>(&self, key: &str, value: MetricValue) -> MetricResult<T> {
        match value {
            MetricValue::Signed(number) => self.send_numbers(key, &[number]),
            MetricValue::PackedSigned(numbers) => self.send_numbers(key, &numbers),
            MetricValue::Unsigned(number) => self.send_numbers(key, &[number]),
            MetricValue::PackedUnsigned(numbers) => self.send_numbers(key, &numbers),
            MetricValue::Float(number) => self.send_numbers(key, &[number]),
            MetricValue::PackedFloat(numbers) => self.send_numbers(key, &numbers),
        }
    }

    /// Makes the line of numbers without options, sends it, and returns its metric.
    #[inline(never)]
    fn send_numbers<T: OwnMetric, N: Number>(&self, key: &str, numbers: &[N]) -> MetricResult<T> {
        let mut room = Room::new();
        let line = self.plain_parts(T::KIND, key, numbers).line(&mut room);
        self.send_line(line, |unmade| self.plain_parts(T::KIND, key, numbers).text_after(unmade))
    }

    /// Returns the parts of a line without options.
    #[inline]
    fn plain_parts<'a, N: Number>(&'a self, kind: Kind, key: &'a str, numbers: &'a [N]) -> Parts<'a> {
        static NONE: Options<'static> = Options::new();
        Parts { settings: self.settings.lend(), kind, key, numbers: Numbers::new(numbers), options: &NONE }
    }

    /// Sends a line and returns its metric. A line that wasn't made in a room is made by `text_after`.
    #[inline(always)]
    fn send_line<T: OwnMetric>(
        &self,
        line: Result<Line<'_>, Unmade>,
        text_after: impl FnOnce(Unmade) -> MetricResult<Text>,
    ) -> MetricResult<T> {
        match line {
            Ok(line) => {
                self.check()?;
                self.send_text(line.as_str())?;
                match line.short_text() {
                    Some(text) => Ok(T::of_text(text)),
                    None => long_metric(line),
                }
            }
            Err(unmade) => self.send_made(text_after(unmade)),
        }
    }

    /// Sends a line that has memory of its own and returns its metric, or the error for which it isn't made.
    #[cold]
    #[inline(never)]
    fn send_made<T: OwnMetric>(&self, text: MetricResult<Text>) -> MetricResult<T> {
        let text = text?;
        self.check()?;
        self.send_text(text.as_str())?;
        Ok(T::of_text(text))
    }

    /// Gives a text to the sink.
    #[inline]
    pub(super) fn send_text(&self, text: &str) -> MetricResult<()> {
        match &self.telemetry {
            None => self.sink.emit(text)?,
            Some(telemetry) => {
                telemetry.report(&*self.sink);
                self.sink.emit(text).inspect_err(|_| telemetry.count_refused())?
            }
        };
        Ok(())
    }
}

/// Returns the metric of a line that was sent, and whose text needs memory of its own.
#[inline(never)]
fn long_metric<T: OwnMetric>(line: Line<'_>) -> MetricResult<T> {
    Ok(T::of_text(line.into()))
}
