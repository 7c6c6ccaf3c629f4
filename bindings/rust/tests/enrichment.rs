// SPDX-License-Identifier: MIT OR Apache-2.0
//! Clients that tell a Datadog agent which tags to add.
use cadence::ext::SocketStats;
use cadence::prelude::*;
use cadence::{
    Cardinality, ErrorKind, Metric, MetricSink, NopMetricSink, ServiceStatus, SinkStats, StatsdClient, StatsdClientBuilder,
};
use std::io;
use std::sync::{Arc, Mutex};
use std::time::Duration;

const EXTERNAL: &str = "it-false,cn-web,pu-4a:é";

/// The cardinalities, and what each is in a line.
const CARDINALITIES: [(Cardinality, &str); 4] = [
    (Cardinality::NoTags, "|card:none"),
    (Cardinality::Low, "|card:low"),
    (Cardinality::Orchestrator, "|card:orchestrator"),
    (Cardinality::High, "|card:high"),
];

fn builder() -> StatsdClientBuilder {
    StatsdClient::builder("p", NopMetricSink)
}

#[test]
fn external_data_and_cardinalities_come_before_the_time() {
    let client = builder().with_tag("env", "prod").with_container_id("box").with_external_data(EXTERNAL).build();
    let metric = client.incr_with_tags("k").with_timestamp(9).with_cardinality(Cardinality::Low).try_send().unwrap();
    assert_eq!(format!("p.k:1|c|#env:prod|c:box|e:{EXTERNAL}|card:low|T9"), metric.as_metric_str());
    assert_eq!(format!("p.k:0.5|g|#env:prod|c:box|e:{EXTERNAL}"), client.gauge("k", 0.5).unwrap().as_metric_str());
}

#[test]
fn the_cardinality_of_a_metric_replaces_that_of_the_client() {
    let plain = builder().build();
    for (ours, text) in CARDINALITIES {
        let client = builder().with_cardinality(ours).build();
        assert_eq!(format!("p.k:1|c{text}"), client.incr("k").unwrap().as_metric_str());
        assert_eq!(format!("p.k:a|s{text}"), client.set_text("k", "a").unwrap().as_metric_str());
        for (own, text) in CARDINALITIES {
            let metric = client.incr_with_tags("k").with_cardinality(own).try_send().unwrap();
            assert_eq!(format!("p.k:1|c{text}"), metric.as_metric_str());
        }
        let metric = plain.level_with_tags("k", -1).with_cardinality(ours).try_send().unwrap();
        assert_eq!(format!("p.k:0|g{text}\np.k:-1|g{text}"), metric.as_metric_str());
    }
}

#[test]
fn external_data_with_a_bar_or_a_newline_are_refused() {
    for text in ["|", "a|b", "\n", "a\n"] {
        let error = builder().with_external_data(text).try_build().unwrap_err();
        assert_eq!((ErrorKind::InvalidInput, "separator in a text".to_string()), (error.kind(), error.to_string()));
        assert!(builder().with_external_data(text).build().incr("k").is_err());
    }
    let empty = builder().with_external_data("").build();
    assert_eq!("p.k:1|c", empty.incr("k").unwrap().as_metric_str());
}

#[test]
fn strict_clients_and_those_that_clean_texts_send_external_data_as_they_are() {
    for builder in [builder().with_strict_texts(), builder().with_cleaned_texts()] {
        let client = builder.with_external_data(EXTERNAL).try_build().unwrap();
        assert_eq!(format!("p.k:1|c|e:{EXTERNAL}"), client.incr("k").unwrap().as_metric_str());
    }
}

/// A sink that stores its lines, and counts them as packets.
#[derive(Clone, Default)]
struct Spy {
    lines: Arc<Mutex<Vec<String>>>,
    stats: SocketStats,
}

impl MetricSink for Spy {
    fn emit(&self, line: &str) -> io::Result<usize> {
        self.lines.lock().unwrap().push(line.to_string());
        self.stats.update(Ok(line.len()), line.len())
    }

    fn stats(&self) -> SinkStats {
        (&self.stats).into()
    }
}

#[test]
fn telemetry_has_them_and_events_do_not() {
    let spy = Spy::default();
    let client = StatsdClient::builder("p", spy.clone())
        .with_external_data("cn-web")
        .with_cardinality(Cardinality::High)
        .with_telemetry("t", Duration::ZERO)
        .build();
    client.event("a", "b").try_send().unwrap();
    client.service_check("n", ServiceStatus::Ok).try_send().unwrap();
    client.flush().unwrap();
    let lines = spy.lines.lock().unwrap().clone();
    let (sent, counts): (Vec<_>, Vec<_>) = lines.into_iter().partition(|line| line.starts_with('_'));
    assert_eq!(vec!["_e{1,1}:a|b", "_sc|n|0"], sent);
    assert!(counts.iter().any(|line| line.starts_with("t.packets_sent:")), "{counts:?}");
    assert!(counts.iter().all(|line| line.ends_with("|c|e:cn-web|card:high")), "{counts:?}");
}
