// SPDX-License-Identifier: MIT OR Apache-2.0
//! Floats in lines: each is printed as Rust prints it, rounded to 30 places, with 0 for a zero of either sign. What is NaN,
//! infinite or too large is refused.
use cadence::prelude::*;
use cadence::{ErrorKind, Gauge, Metric, NopMetricSink, StatsdClient};

/// Returns the text of a float in a line, or nothing if a client refuses the float.
fn text_of(x: f64) -> Option<String> {
    if x.is_nan() || x.abs() > 2_f64.powi(127) {
        return None;
    }
    let text = (x + 0.0).to_string();
    match text.split_once('.') {
        Some((whole, places)) if places.len() > 30 => Some(rounded(whole, places)),
        _ => Some(text),
    }
}

/// Returns the text of a number whose whole part is 0 or -0, rounded to 30 places.
fn rounded(whole: &str, places: &str) -> String {
    let (kept, cut) = places.split_at(30);
    let size: u128 = kept.parse::<u128>().unwrap() + u128::from(cut.as_bytes()[0] >= b'5');
    let digits = format!("{size:030}");
    match digits.trim_end_matches('0') {
        "" => "0".to_string(),
        digits => format!("{whole}.{digits}"),
    }
}

fn line(metric: cadence::MetricResult<Gauge>) -> String {
    metric.unwrap().as_metric_str().to_string()
}

fn client() -> StatsdClient {
    StatsdClient::from_sink("p", NopMetricSink)
}

/// Asserts that a gauge of the float has this text, or is refused.
fn agrees(x: f64) {
    match text_of(x) {
        Some(text) => assert_eq!(format!("k:{text}|g"), Gauge::new_f64("", "k", x).as_metric_str(), "{x:?}"),
        None => assert_eq!(ErrorKind::InvalidInput, client().gauge("k", x).unwrap_err().kind(), "{x:?}"),
    }
}

#[test]
fn a_float_prints_as_its_text() {
    for x in [0.0, 1.0, -1.0, 0.1, 2.5, -3.25, 1e15, 999_999_999_999_999.0, 0.000_001, 1e-30, 123_456.789, 1e18, 1e37, -1e38] {
        assert_eq!(x.to_string(), text_of(x).unwrap());
        agrees(x);
    }
    let mut bits = 0x9e37_79b9_7f4a_7c15_u64;
    for turn in 0..300_000_u64 {
        bits = bits.wrapping_mul(6_364_136_223_846_793_005).wrapping_add(1_442_695_040_888_963_407);
        agrees((bits >> 40) as f64 / [1e1, 1e2, 1e3, 1e6, 1e7][(turn % 5) as usize]);
        agrees((bits as i64 >> 12) as f64 / 1e6);
        agrees(f64::from_bits(bits));
        let of_some_exponent = f64::from_bits((bits & ((1 << 52) - 1)) | ((1013 + turn % 62) << 52));
        agrees(of_some_exponent);
        agrees(-of_some_exponent);
    }
}

#[test]
fn floats_beside_a_power_of_2_print_as_their_text() {
    for exponent in 1012..=1075 {
        for bits in [exponent << 52, (exponent << 52) + 1, (exponent << 52) + 2, (exponent << 52) - 1] {
            assert_eq!(Some(f64::from_bits(bits).to_string()), text_of(f64::from_bits(bits)));
            agrees(f64::from_bits(bits));
        }
    }
}

#[test]
fn small_floats_are_rounded_to_30_places() {
    let zeros = "0".repeat(29);
    for (x, text) in [
        (-0.0, "0".to_string()),
        (1.4e-30, format!("0.{zeros}1")),
        (1.5e-30, format!("0.{zeros}2")),
        (-1.5e-30, format!("-0.{zeros}2")),
        (5e-31, format!("0.{zeros}1")),
        (4e-31, "0".to_string()),
        (-1e-31, "0".to_string()),
        (f64::MIN_POSITIVE, "0".to_string()),
        (5e-324, "0".to_string()),
        (2.775_557_561_562_891_4e-17, "0.000000000000000027755575615629".to_string()),
    ] {
        assert_eq!(Some(&text), text_of(x).as_ref());
        assert_eq!(format!("p.k:{text}|g"), line(client().gauge("k", x)));
        assert_eq!(format!("p.k:1|g|@{text}"), line(client().gauge_with_tags("k", 1_u64).with_sampling_rate(x).try_send()));
    }
}

#[test]
fn large_floats_are_refused() {
    let most = 2_f64.powi(127);
    let past = f64::from_bits(most.to_bits() + 1);
    for x in [past, -past, -1e300, f64::MAX, f64::NAN, f64::INFINITY, f64::NEG_INFINITY] {
        assert_eq!(None, text_of(x));
        agrees(x);
        assert_eq!(format!("k:{x}|g"), Gauge::new_f64("", "k", x).as_metric_str());
        assert_eq!(ErrorKind::InvalidInput, client().histogram("k", vec![1.0, x]).unwrap_err().kind());
    }
    for x in [9.3e18, f64::MAX, f64::NAN] {
        let rated = client().gauge_with_tags("k", 1_u64).with_sampling_rate(x).try_send();
        assert_eq!(ErrorKind::InvalidInput, rated.unwrap_err().kind(), "{x:?}");
    }
    for x in [most, -most, f64::from_bits(most.to_bits() - 1)] {
        agrees(x);
    }
    agrees(9.3e18);
}

#[test]
fn random_floats_print_as_their_text() {
    let c = client();
    let mut bits = 0x2545_f491_4f6c_dd1d_u64;
    for _ in 0..20_000 {
        bits = bits.wrapping_mul(6_364_136_223_846_793_005).wrapping_add(1_442_695_040_888_963_407);
        for x in [f64::from_bits(bits), (bits >> 44) as f64 / 1e4, (bits as i64 >> 11) as f64 / 1e9] {
            if let Some(text) = text_of(x) {
                assert_eq!(format!("p.k:{text}|g"), line(c.gauge("k", x)));
                if x.abs() < 9.2e18 {
                    let rated = c.gauge_with_tags("k", x).with_sampling_rate(x).try_send();
                    assert_eq!(format!("p.k:{text}|g|@{text}"), line(rated));
                }
            }
        }
    }
}
