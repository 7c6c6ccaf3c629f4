// SPDX-License-Identifier: MIT OR Apache-2.0
//! The line of each call.
use cadence::ext::MetricValue;
use cadence::prelude::*;
use cadence::{
    Counter, Distribution, ErrorKind, Gauge, Histogram, Meter, Metric, MetricError, MetricResult, NopMetricSink, Set,
    StatsdClient, Timer,
};
use std::time::Duration;

fn client() -> StatsdClient {
    StatsdClient::from_sink("p", NopMetricSink)
}

fn line<M: Metric>(metric: MetricResult<M>) -> String {
    metric.unwrap().as_metric_str().to_string()
}

#[test]
fn each_kind_has_its_values() {
    let c = client();
    let (ms, ns) = (Duration::from_millis, Duration::from_nanos);
    let found = [
        (line(c.count("k", 3)), "p.k:3|c"),
        (line(c.count("k", i64::MIN)), "p.k:-9223372036854775808|c"),
        (line(c.count("k", -7i32)), "p.k:-7|c"),
        (line(c.count("k", u64::MAX)), "p.k:18446744073709551615|c"),
        (line(c.count("k", 8u32)), "p.k:8|c"),
        (line(c.incr("k")), "p.k:1|c"),
        (line(c.decr("k")), "p.k:-1|c"),
        (line(c.time("k", 25)), "p.k:25|ms"),
        (line(c.time("k", 12.5)), "p.k:12.5|ms"),
        (line(c.time("k", vec![0.25, 1.234_567_8])), "p.k:0.25:1.234568|ms"),
        (line(c.time("k", Duration::from_micros(1_999))), "p.k:1|ms"),
        (line(c.time("k", vec![1u64, 22, 333])), "p.k:1:22:333|ms"),
        (line(c.time("k", vec![ms(157), ms(158)])), "p.k:157:158|ms"),
        (line(c.gauge("k", 5)), "p.k:5|g"),
        (line(c.gauge("k", 5.5)), "p.k:5.5|g"),
        (line(c.meter("k", 64)), "p.k:64|m"),
        (line(c.histogram("k", 27)), "p.k:27|h"),
        (line(c.histogram("k", 0.25)), "p.k:0.25|h"),
        (line(c.histogram("k", ns(210))), "p.k:210|h"),
        (line(c.histogram("k", vec![27u64, 28])), "p.k:27:28|h"),
        (line(c.histogram("k", vec![2.5, 3.0])), "p.k:2.5:3|h"),
        (line(c.histogram("k", vec![ns(210), ns(211)])), "p.k:210:211|h"),
        (line(c.distribution("k", 27)), "p.k:27|d"),
        (line(c.distribution("k", 27.5)), "p.k:27.5|d"),
        (line(c.distribution("k", vec![27u64, 28])), "p.k:27:28|d"),
        (line(c.distribution("k", vec![0.1, 20.0, -3.5])), "p.k:0.1:20:-3.5|d"),
        (line(c.set("k", -5)), "p.k:-5|s"),
        (line(c.time("k", Vec::<u64>::new())), "p.k:|ms"),
        (line(c.histogram("k", Vec::<f64>::new())), "p.k:|h"),
    ];
    for (found, wanted) in found {
        assert_eq!(wanted, found);
    }
}

#[test]
fn the_prelude_has_the_trait_of_all_calls() {
    let boxed: Box<dyn MetricClient> = Box::new(client());
    assert_eq!("p.k:1|c", line(boxed.incr("k")));
}

#[test]
fn each_constructor_prints_its_prefix_as_it_stands() {
    let found = [
        (Counter::new("a.", "k", 4).as_metric_str().to_string(), "a.k:4|c"),
        (Counter::new("", "k", -4).as_metric_str().to_string(), "k:-4|c"),
        (Timer::new("a.", "k", 34).as_metric_str().to_string(), "a.k:34|ms"),
        (Gauge::new("a", "k", 2).as_metric_str().to_string(), "ak:2|g"),
        (Gauge::new_f64("a.", "k", 5.5).as_metric_str().to_string(), "a.k:5.5|g"),
        (Gauge::new_f64("a.", "k", f64::NAN).as_metric_str().to_string(), "a.k:NaN|g"),
        (Gauge::new_f64("a.", "k", f64::NEG_INFINITY).as_metric_str().to_string(), "a.k:-inf|g"),
        (Meter::new("a.", "k", 5).as_metric_str().to_string(), "a.k:5|m"),
        (Histogram::new("a.", "k", 45).as_metric_str().to_string(), "a.k:45|h"),
        (Histogram::new_f64("a.", "k", 0.5).as_metric_str().to_string(), "a.k:0.5|h"),
        (Distribution::new("a.", "k", 45).as_metric_str().to_string(), "a.k:45|d"),
        (Distribution::new_f64("a.", "k", 45.25).as_metric_str().to_string(), "a.k:45.25|d"),
        (Set::new("a.", "k", 4).as_metric_str().to_string(), "a.k:4|s"),
    ];
    for (found, wanted) in found {
        assert_eq!(wanted, found);
    }
    assert_eq!(Counter::new("p.", "k", 4), client().count("k", 4).unwrap());
    assert_eq!(Counter::from("x".to_string()).as_metric_str(), "x");
}

#[test]
fn a_prefix_ends_with_one_dot() {
    for (prefix, wanted) in [("", "k:1|c"), ("p", "p.k:1|c"), ("p.q..", "p.q.k:1|c"), ("...", ".k:1|c"), ("é", "é.k:1|c")] {
        assert_eq!(wanted, line(StatsdClient::from_sink(prefix, NopMetricSink).incr("k")), "{prefix}");
    }
}

#[test]
fn options_stand_in_their_order() {
    let c = client();
    let found = [
        (line(c.count_with_tags("k", 3).with_tag("foo", "bar").try_send()), "p.k:3|c|#foo:bar"),
        (line(c.incr_with_tags("k").with_tag_value("beta").try_send()), "p.k:1|c|#beta"),
        (line(c.decr_with_tags("k").with_tag("a", "").with_tag("", "b").try_send()), "p.k:-1|c|#a:,:b"),
        (line(c.gauge_with_tags("k", 4).with_timestamp(1_234_567_890).try_send()), "p.k:4|g|T1234567890"),
        (line(c.meter_with_tags("k", 4).with_container_id("1234").try_send()), "p.k:4|m|c:1234"),
        (line(c.set_with_tags("k", 3).with_tag("foo", "bar").try_send()), "p.k:3|s|#foo:bar"),
        (line(c.distribution_with_tags("k", vec![44u64, 45]).with_sampling_rate(0.5).try_send()), "p.k:44:45|d|@0.5"),
        (line(c.histogram_with_tags("k", 1.5).with_sampling_rate(1e-21).try_send()), "p.k:1.5|h|@0.000000000000000000001"),
        (
            line(
                c.time_with_tags("k", Duration::from_millis(7))
                    .with_timestamp(9)
                    .with_container_id("box")
                    .with_sampling_rate(0.25)
                    .with_tag("host", "web")
                    .with_tag_value("rc1")
                    .try_send(),
            ),
            "p.k:7|ms|@0.25|#host:web,rc1|c:box|T9",
        ),
    ];
    for (found, wanted) in found {
        assert_eq!(wanted, found);
    }
}

#[test]
fn default_tags_come_first_and_a_container_replaces_the_default() {
    let c = StatsdClient::builder("p", NopMetricSink)
        .with_tag("env", "prod")
        .with_tag_value(7)
        .with_tag('x', 1.5)
        .with_container_id("box-1")
        .build();
    assert_eq!("p.k:1|c|#env:prod,7,x:1.5|c:box-1", line(c.incr("k")));
    let own = c.gauge_with_tags("k", 2).with_tag("a", "b").with_container_id("box-2").try_send();
    assert_eq!("p.k:2|g|#env:prod,7,x:1.5,a:b|c:box-2", line(own));
}

#[test]
fn texts_are_printed_as_they_are() {
    let long = "é|:#\n".repeat(3_000);
    let found = line(client().count_with_tags(&long, 1).with_tag(&long, &long).with_tag_value(&long).try_send());
    assert_eq!(format!("p.{long}:1|c|#{long}:{long},{long}"), found);
}

/// Floats, each of which is printed as `{}` prints it. The last two are no rates.
const FLOATS: [f64; 12] =
    [0.0, 1.0, -1.0, 0.1, 2.5, 1e-30, 123_456.789, 0.300_000_000_000_000_04, 9.2e18, -9.2e18, 9.3e18, 1e19];

#[test]
fn a_float_prints_as_its_text() {
    let c = StatsdClient::builder("p", NopMetricSink).with_tag("a", "b|c:1").with_container_id("box").build();
    for x in FLOATS {
        assert_eq!(format!("p.k:{x}|g|#a:b|c:1|c:box"), line(c.gauge("k", x)));
        assert_eq!(format!("p.k:{x}|h|#a:b|c:1|c:box"), line(c.histogram("k", x)));
        assert_eq!(format!("p.k:1.5:{x}:2|d|#a:b|c:1|c:box"), line(c.distribution("k", vec![1.5, x, 2.0])));
        if x < 9.3e18 {
            let rated = c.count_with_tags("k", 12).with_sampling_rate(x).with_timestamp(3).try_send();
            assert_eq!(format!("p.k:12|c|@{x}|#a:b|c:1|c:box|T3"), line(rated));
            let both = c.gauge_with_tags("k", x).with_sampling_rate(x).try_send();
            assert_eq!(format!("p.k:{x}|g|@{x}|#a:b|c:1|c:box"), line(both));
        }
        assert_eq!(format!("{x}"), MetricValue::Float(x).to_string());
        assert_eq!(format!("a.k:{x}|g"), Gauge::new_f64("a.", "k", x).as_metric_str());
    }
    let many: Vec<f64> = (0..100).map(|i| f64::from(i) / 8.0).collect();
    let texts: Vec<String> = many.iter().map(f64::to_string).collect();
    assert_eq!(format!("p.k:{}|d", texts.join(":")), line(client().distribution("k", many)));
}

#[test]
fn nan_and_infinities_are_refused() {
    let c = client();
    for x in [f64::NAN, f64::INFINITY, f64::NEG_INFINITY] {
        let kinds = [
            c.gauge("k", x).map(drop),
            c.histogram("k", x).map(drop),
            c.distribution("k", vec![1.0, x]).map(drop),
            c.count_with_tags("k", 1).with_sampling_rate(x).try_send().map(drop),
        ];
        for answer in kinds {
            assert_eq!(ErrorKind::InvalidInput, answer.unwrap_err().kind(), "{x}");
        }
    }
    assert_eq!("p.k:1|c", line(c.incr("k")));
}

#[test]
fn a_duration_past_64_bits_is_refused() {
    let c = client();
    let long = Duration::from_secs(u64::MAX);
    let answers = [
        c.time("k", long).map(drop),
        c.time("k", vec![Duration::ZERO, long]).map(drop),
        c.time_with_tags("k", long).with_tag("a", "b").with_timestamp(1).try_send().map(drop),
        c.histogram("k", Duration::from_millis(u64::MAX)).map(drop),
        c.histogram("k", vec![Duration::ZERO, long]).map(drop),
    ];
    for answer in answers {
        assert_eq!(ErrorKind::InvalidInput, answer.unwrap_err().kind());
    }
}

#[test]
fn a_value_has_the_text_of_its_line() {
    let found = [
        (MetricValue::Signed(-1), "-1"),
        (MetricValue::PackedSigned(vec![-1, 2]), "-1:2"),
        (MetricValue::Unsigned(3), "3"),
        (MetricValue::PackedUnsigned(vec![3, 4]), "3:4"),
        (MetricValue::Float(0.5), "0.5"),
        (MetricValue::PackedFloat(vec![0.5, f64::INFINITY]), "0.5:inf"),
        (MetricValue::PackedFloat(vec![]), ""),
    ];
    for (value, wanted) in found {
        assert_eq!(wanted, value.clone().to_string());
    }
}

#[test]
fn debug_prints_what_the_crate_prints() {
    assert_eq!("Counter { repr: \"a.b:1|c\" }", format!("{:?}", Counter::new("a.", "b", 1)));
    let text = MetricError::from((ErrorKind::InvalidInput, "a text"));
    assert_eq!("MetricError { repr: WithDescription(InvalidInput, \"a text\") }", format!("{text:?}"));
    let io = MetricError::from(std::io::Error::from(std::io::ErrorKind::TimedOut));
    assert_eq!("MetricError { repr: IoError(Kind(TimedOut)) }", format!("{io:?}"));
    let builder = format!("{:?}", client().count_with_tags("k", 1).with_tag("a", "b").with_tag_value("c"));
    assert!(builder.contains("tags: [(Some(\"a\"), \"b\"), (None, \"c\")]"), "{builder}");
}

#[test]
fn each_of_many_tags_is_in_the_line() {
    let client = StatsdClient::from_sink("p", NopMetricSink);
    let keys: Vec<String> = (0..12).map(|number| format!("k{number}")).collect();
    for keys in (0..=keys.len()).map(|count| &keys[..count]) {
        let builder = keys.iter().fold(client.count_with_tags("n", 1), |builder, key| builder.with_tag(key, "v"));
        let tags: Vec<String> = keys.iter().map(|key| format!("{key}:v")).collect();
        let wanted = if tags.is_empty() { "p.n:1|c".to_string() } else { format!("p.n:1|c|#{}", tags.join(",")) };
        assert_eq!(wanted, builder.try_send().unwrap().as_metric_str());
    }
}
