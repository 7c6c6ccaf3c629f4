// SPDX-License-Identifier: MIT OR Apache-2.0
//! Lines of all lengths, and metrics that have memory of their own for their text and metrics that don't.
use cadence::prelude::*;
use cadence::{Counter, Gauge, Metric, Set, SpyMetricSink, StatsdClient};
use std::collections::HashSet;
use std::mem::size_of;

/// Lengths around those at which a line is made and kept in another way.
const LENGTHS: [usize; 13] = [20, 125, 126, 127, 128, 200, 511, 512, 513, 514, 1023, 1024, 5000];

#[test]
fn each_way_to_make_a_line_makes_lines_of_all_lengths() {
    let (receiver, sink) = SpyMetricSink::new();
    let client = StatsdClient::builder("p", sink).with_tag("t", "u").build();
    for length in LENGTHS {
        let key = "k".repeat(length);
        let check = |end: &str, returned: &str| {
            let wanted = format!("p.{key}:{end}");
            assert_eq!(wanted, returned);
            assert_eq!(wanted.as_bytes(), receiver.try_recv().unwrap());
        };
        check("-7|c|#t:u", client.count(&key, -7).unwrap().as_metric_str());
        check("0.37|g|#t:u", client.gauge(&key, 0.37).unwrap().as_metric_str());
        check("1:2|ms|#t:u", client.time(&key, vec![1, 2]).unwrap().as_metric_str());
        check("1|c|#t:u,a:b", client.incr_with_tags(&key).with_tag("a", "b").try_send().unwrap().as_metric_str());
        check("1|c|@0.5|#t:u", client.incr_with_tags(&key).with_sampling_rate(0.5).try_send().unwrap().as_metric_str());
        check("a|s|#t:u", client.set_text(&key, "a").unwrap().as_metric_str());
        check("+3|g|#t:u", client.change(&key, 3).unwrap().as_metric_str());
        let level = format!("0|g|#t:u\np.{key}:-3|g|#t:u");
        check(&level, client.level(&key, -3).unwrap().as_metric_str());
    }
}

#[test]
fn a_line_of_each_length_is_whole() {
    let client = StatsdClient::from_sink("", cadence::NopMetricSink);
    for length in 0..1100 {
        let key: String = ('a'..='z').cycle().take(length).collect();
        let (plain, tagged) = (client.incr(&key).unwrap(), client.incr_with_tags(&key).try_send().unwrap());
        assert_eq!(format!("{key}:1|c"), plain.as_metric_str());
        assert_eq!(plain, tagged);
    }
}

#[test]
fn a_metric_is_its_text_wherever_that_is() {
    let client = StatsdClient::from_sink("p", cadence::NopMetricSink);
    let (made, given) = (client.incr("k").unwrap(), Counter::from("p.k:1|c".to_string()));
    assert_eq!(made, given);
    assert_eq!(given, made.clone());
    assert_ne!(made, client.incr("l").unwrap());
    assert_eq!(made, Counter::new("p.", "k", 1));
    assert_eq!("Counter { repr: \"p.k:1|c\" }", format!("{made:?}"));
    assert_eq!(format!("{made:?}"), format!("{given:?}"));
    assert_eq!(1, HashSet::from([made, given]).len());
    assert_eq!(128, size_of::<Counter>(), "the text of a short metric and its length");
    assert_eq!("p.x:NaN|g", Gauge::new_f64("p.", "x", f64::NAN).as_metric_str());
    assert_eq!("", Set::from(String::new()).as_metric_str());
}

#[test]
fn a_refused_call_of_a_long_line_says_why() {
    let client = StatsdClient::builder("p", cadence::NopMetricSink).with_strict_texts().build();
    for length in LENGTHS {
        let key = "k".repeat(length);
        assert_eq!("separator in a text", client.incr(&(key.clone() + "|")).unwrap_err().to_string());
        let tagged = client.incr_with_tags(&key).with_tag_value("a,b").try_send();
        assert_eq!("separator in a text", tagged.unwrap_err().to_string());
        assert_eq!("a float is NaN, infinite or too large", client.gauge(&key, f64::NAN).unwrap_err().to_string());
        assert!(client.set_text(&key, "").is_err());
    }
}
