//! A call over the binding and over the crate, and the works that are measured.

/// What a call gave.
#[derive(Clone, Debug, PartialEq)]
pub struct Answer {
    /// The line of the metric that the call returned, or the text of its error. `send` returns nothing, which is an
    /// empty line here.
    pub returned: Result<String, String>,
    /// The lines that the sink got.
    pub emitted: Vec<String>,
    /// The texts of the errors that the error handler got.
    pub handled: Vec<String>,
}

/// A work: it makes so many calls, and returns the sum of the lengths of their lines.
pub type Work = fn(u64) -> u64;

/// Sends a metric by a call that sends at once, or by its builder, as the form of the call says.
macro_rules! either {
    ($client:ident, $plain:ident, $tagged:ident, $call:ident, $($words:expr),+) => {
        if $call.form == Form::Plain {
            returned_by($client.$plain($($words),+))
        } else {
            sent($client.$tagged($($words),+), $call)
        }
    };
}

macro_rules! side {
    ($side:ident of $cadence:ident) => {
        pub mod $side {
            use super::{Answer, Work};
            use crate::call::{Call, Form, Kind, Value};
            use std::hint::black_box;
            use std::net::UdpSocket;
            use std::sync::{Arc, Mutex};
            use $cadence::ext::MetricBackend;
            use $cadence::prelude::*;
            use $cadence::{
                BufferedUdpMetricSink, Counter, Distribution, Gauge, Histogram, Meter, Metric, MetricBuilder, MetricError,
                MetricSink, NopMetricSink, Set, StatsdClient, Timer,
            };

            #[derive(Clone, Default)]
            struct Got(Arc<Mutex<Vec<String>>>);

            impl Got {
                fn put(&self, text: String) {
                    self.0.lock().unwrap().push(text);
                }

                fn take(&self) -> Vec<String> {
                    std::mem::take(&mut self.0.lock().unwrap())
                }
            }

            impl MetricSink for Got {
                fn emit(&self, line: &str) -> std::io::Result<usize> {
                    self.put(line.to_string());
                    Ok(line.len())
                }
            }

            fn told(error: &MetricError) -> String {
                format!("{:?}: {error}", error.kind())
            }

            fn line<T: Metric>(metric: T) -> String {
                metric.as_metric_str().to_string()
            }

            fn returned_by<T: Metric>(result: Result<T, MetricError>) -> Result<String, String> {
                result.map(line).map_err(|error| told(&error))
            }

            /// Adds the options of a call to its builder, and sends the metric.
            fn sent<'a, T: Metric + From<String>>(
                mut builder: MetricBuilder<'a, 'a, T>,
                call: &'a Call,
            ) -> Result<String, String> {
                for (key, text) in &call.tags {
                    builder = match key {
                        Some(key) => builder.with_tag(key, text),
                        None => builder.with_tag_value(text),
                    };
                }
                if let Some(container) = &call.container {
                    builder = builder.with_container_id(container);
                }
                if let Some(rate) = call.rate {
                    builder = builder.with_sampling_rate(rate);
                }
                if let Some(time) = call.time {
                    builder = builder.with_timestamp(time);
                }
                if call.form != Form::Send {
                    return returned_by(builder.try_send());
                }
                builder.send();
                Ok(String::new())
            }

            /// Makes a metric without a client, and returns its line.
            fn constructed(prefix: &str, key: &str, kind: Kind, value: &Value) -> String {
                match (kind, value) {
                    (Kind::Counter, Value::I64(n)) => line(Counter::new(prefix, key, *n)),
                    (Kind::Timer, Value::U64(n)) => line(Timer::new(prefix, key, *n)),
                    (Kind::Gauge, Value::U64(n)) => line(Gauge::new(prefix, key, *n)),
                    (Kind::Gauge, Value::F64(x)) => line(Gauge::new_f64(prefix, key, *x)),
                    (Kind::Meter, Value::U64(n)) => line(Meter::new(prefix, key, *n)),
                    (Kind::Histogram, Value::U64(n)) => line(Histogram::new(prefix, key, *n)),
                    (Kind::Histogram, Value::F64(x)) => line(Histogram::new_f64(prefix, key, *x)),
                    (Kind::Distribution, Value::U64(n)) => line(Distribution::new(prefix, key, *n)),
                    (Kind::Distribution, Value::F64(x)) => line(Distribution::new_f64(prefix, key, *x)),
                    (Kind::Set, Value::I64(n)) => line(Set::new(prefix, key, *n)),
                    _ => unreachable!("there is no such constructor"),
                }
            }

            fn returned(client: &StatsdClient, call: &Call) -> Result<String, String> {
                let (c, key) = (client, &*call.key);
                match (call.kind, &call.value) {
                    (Kind::Counter, Value::I64(n)) => either!(c, count, count_with_tags, call, key, *n),
                    (Kind::Counter, Value::I32(n)) => either!(c, count, count_with_tags, call, key, *n),
                    (Kind::Counter, Value::U64(n)) => either!(c, count, count_with_tags, call, key, *n),
                    (Kind::Counter, Value::U32(n)) => either!(c, count, count_with_tags, call, key, *n),
                    (Kind::Counter, Value::Up) => either!(c, incr, incr_with_tags, call, key),
                    (Kind::Counter, Value::Down) => either!(c, decr, decr_with_tags, call, key),
                    (Kind::Timer, Value::U64(n)) => either!(c, time, time_with_tags, call, key, *n),
                    (Kind::Timer, Value::Time(time)) => either!(c, time, time_with_tags, call, key, *time),
                    (Kind::Timer, Value::U64s(ns)) => either!(c, time, time_with_tags, call, key, ns.clone()),
                    (Kind::Timer, Value::Times(times)) => either!(c, time, time_with_tags, call, key, times.clone()),
                    (Kind::Gauge, Value::U64(n)) => either!(c, gauge, gauge_with_tags, call, key, *n),
                    (Kind::Gauge, Value::F64(x)) => either!(c, gauge, gauge_with_tags, call, key, *x),
                    (Kind::Meter, Value::U64(n)) => either!(c, meter, meter_with_tags, call, key, *n),
                    (Kind::Histogram, Value::U64(n)) => either!(c, histogram, histogram_with_tags, call, key, *n),
                    (Kind::Histogram, Value::F64(x)) => either!(c, histogram, histogram_with_tags, call, key, *x),
                    (Kind::Histogram, Value::Time(time)) => either!(c, histogram, histogram_with_tags, call, key, *time),
                    (Kind::Histogram, Value::U64s(ns)) => either!(c, histogram, histogram_with_tags, call, key, ns.clone()),
                    (Kind::Histogram, Value::F64s(xs)) => either!(c, histogram, histogram_with_tags, call, key, xs.clone()),
                    (Kind::Histogram, Value::Times(times)) => {
                        either!(c, histogram, histogram_with_tags, call, key, times.clone())
                    }
                    (Kind::Distribution, Value::U64(n)) => either!(c, distribution, distribution_with_tags, call, key, *n),
                    (Kind::Distribution, Value::F64(x)) => either!(c, distribution, distribution_with_tags, call, key, *x),
                    (Kind::Distribution, Value::U64s(ns)) => {
                        either!(c, distribution, distribution_with_tags, call, key, ns.clone())
                    }
                    (Kind::Distribution, Value::F64s(xs)) => {
                        either!(c, distribution, distribution_with_tags, call, key, xs.clone())
                    }
                    (Kind::Set, Value::I64(n)) => either!(c, set, set_with_tags, call, key, *n),
                    _ => unreachable!("a kind takes no such value"),
                }
            }

            fn client_of(call: &Call, lines: Got, errors: Got) -> StatsdClient {
                let mut builder =
                    StatsdClient::builder(&call.prefix, lines).with_error_handler(move |error| errors.put(told(&error)));
                for (key, text) in &call.defaults {
                    builder = match key {
                        Some(key) => builder.with_tag(key, text),
                        None => builder.with_tag_value(text),
                    };
                }
                if let Some(container) = &call.default_container {
                    builder = builder.with_container_id(container);
                }
                builder.build()
            }

            /// Makes a call, and returns what it gave. A constructor's metric is sent by `send_metric`.
            pub fn answer(call: &Call) -> Answer {
                let (lines, errors) = (Got::default(), Got::default());
                let client = client_of(call, lines.clone(), errors.clone());
                let returned = if call.is_constructed() {
                    let line = constructed(&call.prefix, &call.key, call.kind, &call.value);
                    client.send_metric(&Counter::from(line.clone())).map(|()| line).map_err(|error| told(&error))
                } else {
                    returned(&client, call)
                };
                Answer { returned, emitted: lines.take(), handled: errors.take() }
            }

            /// Makes calls over a sink, each with its number modulo 1000, and returns the sum of the lengths of their
            /// lines.
            fn over<T: Metric>(
                sink: impl MetricSink + Sync + Send + std::panic::RefUnwindSafe + 'static,
                calls: u64,
                make: impl Fn(&StatsdClient, u64) -> Result<T, MetricError>,
            ) -> u64 {
                let client = StatsdClient::from_sink("some.prefix", sink);
                let length = |i| make(&client, black_box(i % 1000)).unwrap().as_metric_str().len() as u64;
                let sum = (0..calls).map(length).sum();
                client.flush().unwrap();
                sum
            }

            fn count(client: &StatsdClient, i: u64) -> Result<Counter, MetricError> {
                client.count(black_box("some.counter"), i as i64)
            }

            fn tags(client: &StatsdClient, i: u64) -> Result<Counter, MetricError> {
                client
                    .count_with_tags(black_box("some.counter"), i as i64)
                    .with_tag(black_box("host"), black_box("web03.example.com"))
                    .with_tag(black_box("region"), black_box("us-east-2"))
                    .with_tag_value(black_box("beta"))
                    .try_send()
            }

            fn over_udp(calls: u64) -> u64 {
                let server = UdpSocket::bind("127.0.0.1:0").unwrap();
                let socket = UdpSocket::bind("127.0.0.1:0").unwrap();
                over(BufferedUdpMetricSink::with_capacity(server.local_addr().unwrap(), socket, 1432).unwrap(), calls, count)
            }

            /// Returns the work of this name.
            pub fn work(name: &str) -> Option<Work> {
                Some(match name {
                    "count" => |calls| over(NopMetricSink, calls, count),
                    "tags" => |calls| over(NopMetricSink, calls, tags),
                    "gauge2" => |calls| {
                        over(NopMetricSink, calls, |client, i| {
                            client.gauge(black_box("some.gauge"), (i * 7 + 1) as f64 / 100.0)
                        })
                    },
                    "gauge16" => |calls| {
                        over(NopMetricSink, calls, |client, i| client.gauge(black_box("some.gauge"), (i + 1) as f64 / 3.0))
                    },
                    "udp" => over_udp,
                    _ => return None,
                })
            }
        }
    };
}

side! { our_side of ours }
side! { their_side of theirs }
