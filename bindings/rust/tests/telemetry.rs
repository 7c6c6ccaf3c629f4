// SPDX-License-Identifier: MIT OR Apache-2.0
//! Clients that send their own counts.
use cadence::ext::SocketStats;
use cadence::prelude::*;
use cadence::{MetricSink, SinkStats, StatsdClient};
use std::io;
use std::sync::atomic::{AtomicBool, Ordering};
use std::sync::{Arc, Mutex};
use std::time::Duration;

/// A socket that stores each packet, or refuses it.
#[derive(Clone, Default)]
struct Spy {
    lines: Arc<Mutex<Vec<String>>>,
    refuses: Arc<AtomicBool>,
    stats: SocketStats,
}

impl MetricSink for Spy {
    fn emit(&self, metric: &str) -> io::Result<usize> {
        let refused = self.refuses.load(Ordering::SeqCst);
        let result = if refused { Err(io::Error::from(io::ErrorKind::WouldBlock)) } else { Ok(metric.len()) };
        if result.is_ok() {
            self.lines.lock().unwrap().push(metric.to_string());
        }
        self.stats.update(result, metric.len())
    }

    fn stats(&self) -> SinkStats {
        (&self.stats).into()
    }
}

impl Spy {
    /// Returns the lines that came since the last call.
    fn taken(&self) -> Vec<String> {
        std::mem::take(&mut self.lines.lock().unwrap())
    }
}

/// Returns a client over the spy that sends its counts, at most one report in this time.
fn client(spy: &Spy, every: Duration) -> StatsdClient {
    StatsdClient::builder("p", spy.clone()).with_tag("k", "v").with_container_id("id").with_telemetry("t", every).build()
}

#[test]
fn a_report_has_what_has_grown() {
    let spy = Spy::default();
    let client = client(&spy, Duration::ZERO);
    client.flush().unwrap();
    assert!(spy.taken().is_empty());
    client.incr("a").unwrap();
    assert_eq!(vec!["p.a:1|c|#k:v|c:id"], spy.taken());
    client.flush().unwrap();
    let report = vec!["t.bytes_sent:17|c|#k:v|c:id", "t.packets_sent:1|c|#k:v|c:id"];
    assert_eq!(report, spy.taken());
    client.flush().unwrap();
    // what the report added is in the next one
    let size = report.concat().len();
    assert_eq!(vec![format!("t.bytes_sent:{size}|c|#k:v|c:id"), "t.packets_sent:2|c|#k:v|c:id".to_string()], spy.taken());
}

#[test]
fn a_refused_packet_is_in_the_next_report() {
    let spy = Spy::default();
    let client = client(&spy, Duration::ZERO);
    spy.refuses.store(true, Ordering::SeqCst);
    client.incr("a").unwrap_err();
    spy.refuses.store(false, Ordering::SeqCst);
    client.flush().unwrap();
    let names = ["t.bytes_dropped:17|c", "t.packets_dropped:1|c", "t.lines_refused:1|c"];
    assert_eq!(names.map(|name| format!("{name}|#k:v|c:id")).to_vec(), spy.taken());
}

#[test]
fn a_refused_report_is_in_the_next_one() {
    let spy = Spy::default();
    let client = client(&spy, Duration::ZERO);
    client.incr("a").unwrap();
    spy.refuses.store(true, Ordering::SeqCst);
    client.flush().unwrap();
    spy.refuses.store(false, Ordering::SeqCst);
    spy.taken();
    client.flush().unwrap();
    assert!(spy.taken().contains(&"t.packets_sent:1|c|#k:v|c:id".to_string()));
}

#[test]
fn a_client_reports_at_most_once_in_its_time() {
    let spy = Spy::default();
    let client = client(&spy, Duration::from_secs(3600));
    (0..3).for_each(|_| {
        client.incr("a").unwrap();
        client.flush().unwrap();
    });
    assert_eq!(vec!["p.a:1|c|#k:v|c:id"; 3], spy.taken());
}

#[test]
fn a_call_reports_too_if_it_is_time() {
    let spy = Spy::default();
    let client = client(&spy, Duration::ZERO);
    client.incr("a").unwrap();
    client.incr("b").unwrap();
    assert_eq!(Some("p.b:1|c|#k:v|c:id".to_string()), spy.taken().pop());
    client.incr("c").unwrap();
    assert_eq!(3, spy.taken().len());
}
