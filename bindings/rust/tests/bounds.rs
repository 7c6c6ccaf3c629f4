// SPDX-License-Identifier: MIT OR Apache-2.0
//! Which bounds the types meet. The tests compile only if the types meet them.
use cadence::ext::*;
use cadence::prelude::*;
use cadence::*;
use std::collections::HashSet;
use std::error::Error;
use std::fmt::{Debug, Display};
use std::hash::Hash;
use std::marker::PhantomData;
use std::panic::{RefUnwindSafe, UnwindSafe};
use std::sync::Arc;
use std::thread;
use std::time::Duration;

fn shared<T: Send + Sync>() {}
fn safe<T: UnwindSafe + RefUnwindSafe>() {}
fn sink<T: MetricSink + Send + Sync + RefUnwindSafe + Debug + 'static>() {}
fn metric<T: Metric + From<String> + PartialEq + Eq + Debug + Hash + Clone + Send + Sync + UnwindSafe + RefUnwindSafe>() {}

#[test]
fn types_are_shared_between_threads() {
    shared::<StatsdClient>();
    shared::<StatsdClientBuilder>();
    shared::<MetricBuilder<'_, '_, Counter>>();
    shared::<MetricError>();
    shared::<SocketStats>();
    shared::<SpyReceiver<Vec<u8>>>();
    shared::<MultiLineWriter<Vec<u8>>>();
    shared::<UdpMetricSinkBuilder>();
    shared::<BufferedUdpMetricSinkBuilder>();
    shared::<QueuingMetricSinkBuilder>();
    shared::<AggregatingMetricSinkBuilder>();
    safe::<QueuingMetricSink>();
    safe::<SpyReceiver<Vec<u8>>>();
    safe::<NopMetricSink>();
    fn caught<T: RefUnwindSafe>() {}
    caught::<StatsdClient>();
}

#[test]
fn sinks_are_sinks_of_a_client() {
    sink::<NopMetricSink>();
    sink::<UdpMetricSink>();
    sink::<BufferedUdpMetricSink>();
    sink::<UnixMetricSink>();
    sink::<BufferedUnixMetricSink>();
    sink::<QueuingMetricSink>();
    sink::<AggregatingMetricSink<NopMetricSink>>();
    sink::<SpyMetricSink>();
    sink::<BufferedSpyMetricSink>();
    let boxed: Box<dyn MetricSink + Send + Sync + RefUnwindSafe> = Box::new(NopMetricSink);
    assert_eq!(0, boxed.emit("x").unwrap());
}

/// A type that a client and its handlers may contain. It is `RefUnwindSafe`, but not `UnwindSafe`.
struct Odd(PhantomData<&'static mut u8>);

impl MetricSink for Odd {
    fn emit(&self, metric: &str) -> std::io::Result<usize> {
        Ok(metric.len())
    }
}

#[test]
fn sinks_and_handlers_need_not_be_unwind_safe() {
    let odd = || Odd(PhantomData);
    let (client, queue, sums, plain, packed) = (odd(), odd(), odd(), odd(), odd());
    StatsdClient::from_sink("p", odd()).incr("k").unwrap();
    let built = StatsdClient::builder("p", odd()).with_error_handler(move |_| drop(client.emit("lost"))).build();
    built.incr("k").unwrap();
    QueuingMetricSink::from(odd()).emit("k").unwrap();
    QueuingMetricSink::with_capacity(odd(), 1).emit("k").unwrap();
    QueuingMetricSink::builder().with_error_handler(move |_| drop(queue.emit("lost"))).build(odd()).emit("k").unwrap();
    let _ = AggregatingMetricSinkBuilder::new().with_error_handler(move |_| drop(sums.emit("lost")));
    let _ = UdpMetricSink::builder().with_resolver_error_handler(move |_| drop(plain.emit("lost")));
    let _ = BufferedUdpMetricSink::builder().with_resolver_error_handler(move |_| drop(packed.emit("lost")));
}

#[test]
fn metrics_have_their_derives() {
    metric::<Counter>();
    metric::<Timer>();
    metric::<Gauge>();
    metric::<Meter>();
    metric::<Histogram>();
    metric::<Distribution>();
    metric::<Set>();
    fn value<T: Clone + Debug + Display + Send + Sync>() {}
    value::<MetricValue>();
    fn kind<T: Copy + Eq + Hash + Debug>() {}
    kind::<ErrorKind>();
    fn error<T: Error + Send + Sync + 'static>() {}
    error::<MetricError>();
    fn stats<T: Clone + Debug + Default>() {}
    stats::<SinkStats>();
    stats::<SocketStats>();
    fn cloned<T: Clone + Debug>() {}
    cloned::<NopMetricSink>();
    cloned::<QueuingMetricSink>();
    cloned::<AggregatingMetricSinkBuilder>();
    cloned::<SpyReceiver<Vec<u8>>>();
    fn defaults<T: Default>() {}
    defaults::<UdpMetricSinkBuilder>();
    defaults::<BufferedUdpMetricSinkBuilder>();
    defaults::<QueuingMetricSinkBuilder>();
    defaults::<AggregatingMetricSinkBuilder>();
    let set: HashSet<Counter> = [Counter::new("", "a", 1), Counter::new("", "a", 1)].into();
    assert_eq!(1, set.len());
}

#[test]
fn a_client_is_any_of_its_traits_in_a_box() {
    let make = || StatsdClient::from_sink("p", NopMetricSink);
    let counted: [Box<dyn Counted<i64>>; 1] = [Box::new(make())];
    counted[0].count("k", 5).unwrap();
    let timed: Box<dyn Timed<Vec<Duration>>> = Box::new(make());
    timed.time("k", vec![Duration::ZERO]).unwrap();
    let gauged: Box<dyn Gauged<f64>> = Box::new(make());
    gauged.gauge("k", 3.2).unwrap();
    let metered: Box<dyn Metered<u64>> = Box::new(make());
    metered.meter("k", 9).unwrap();
    let histogrammed: Box<dyn Histogrammed<Duration>> = Box::new(make());
    histogrammed.histogram("k", Duration::from_nanos(4)).unwrap();
    let distributed: Box<dyn Distributed<Vec<f64>>> = Box::new(make());
    distributed.distribution("k", vec![33.0]).unwrap();
    let setted: Box<dyn Setted<i64>> = Box::new(make());
    setted.set("k", 5).unwrap();
    let counting: Box<dyn CountedExt> = Box::new(make());
    counting.incr("k").unwrap();
}

#[test]
fn a_client_takes_all_values_behind_one_trait() {
    let queued = QueuingMetricSink::from(NopMetricSink);
    let client: Arc<dyn MetricClient + Send + Sync + RefUnwindSafe> = Arc::new(StatsdClient::from_sink("p", queued));
    client.count("k", 3).unwrap();
    client.count("k", 6i32).unwrap();
    client.count("k", 12u64).unwrap();
    client.count("k", 24u32).unwrap();
    client.time("k", vec![198]).unwrap();
    client.gauge("k", 4.0).unwrap();
    client.meter("k", 29).unwrap();
    client.histogram("k", vec![32.0]).unwrap();
    client.distribution("k", vec![248]).unwrap();
    client.set("k", 5).unwrap();
}

#[test]
fn a_started_metric_goes_to_another_thread() {
    let client = StatsdClient::from_sink("p", NopMetricSink);
    let started = client.count_with_tags("k", 1).with_tag("a", "b");
    thread::scope(|scope| {
        let sent = scope.spawn(move || started.with_tag_value("c").try_send());
        assert_eq!("p.k:1|c|#a:b,c", sent.join().unwrap().unwrap().as_metric_str());
    });
}

#[test]
fn threads_share_a_client() {
    let (receiver, sink) = BufferedSpyMetricSink::with_capacity(None, Some(64));
    let client = Arc::new(StatsdClient::from_sink("p", sink));
    let threads: Vec<_> = (0..8)
        .map(|thread| {
            let client = Arc::clone(&client);
            thread::spawn(move || (0..2_000).for_each(|turn| drop(client.count("k", thread * 10_000 + turn).unwrap())))
        })
        .collect();
    threads.into_iter().for_each(|thread| thread.join().unwrap());
    drop(client);
    let mut lines: Vec<String> = receiver
        .iter()
        .flat_map(|packet| {
            assert!(packet.len() <= 64 && packet.ends_with(b"\n"));
            String::from_utf8(packet).unwrap().lines().map(str::to_string).collect::<Vec<_>>()
        })
        .collect();
    let mut wanted: Vec<String> =
        (0..8).flat_map(|thread| (0..2_000).map(move |turn| format!("p.k:{}|c", thread * 10_000 + turn))).collect();
    lines.sort();
    wanted.sort();
    assert_eq!(wanted, lines);
}

#[test]
fn debug_texts_name_their_type() {
    let (receiver, spy) = SpyMetricSink::new();
    assert!(format!("{spy:?}").starts_with("SpyMetricSink"));
    assert!(format!("{receiver:?}").starts_with("Receiver"));
    let client = StatsdClient::builder("p", NopMetricSink).with_tag("a", "b").build();
    assert_eq!("StatsdClient { prefix: \"p.\", sink: ..., errors: ..., tags: [(Some(\"a\"), \"b\")] }", format!("{client:?}"));
    assert!(format!("{:?}", client.incr_with_tags("k")).starts_with("MetricBuilder"));
    assert!(format!("{:?}", QueuingMetricSink::from(NopMetricSink)).starts_with("QueuingMetricSink"));
    assert_eq!("NopMetricSink", format!("{:?}", NopMetricSink));
    assert_eq!(8125, DEFAULT_PORT);
}
