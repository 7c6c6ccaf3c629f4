// SPDX-License-Identifier: MIT OR Apache-2.0
//! The spies and their receiver.
use cadence::{BufferedSpyMetricSink, MetricSink, SpyMetricSink};
use std::sync::atomic::{AtomicU64, Ordering};
use std::sync::mpsc::{RecvTimeoutError, TryRecvError};
use std::sync::Arc;
use std::thread;
use std::time::{Duration, Instant};

fn text(packet: Vec<u8>) -> String {
    String::from_utf8(packet).unwrap()
}

#[test]
fn a_spy_gives_each_line() {
    let (receiver, sink) = SpyMetricSink::new();
    assert_eq!(7, sink.emit("buz:1|c").unwrap());
    assert_eq!(0, sink.emit("").unwrap());
    assert_eq!("buz:1|c", text(receiver.recv().unwrap()));
    assert_eq!("", text(receiver.recv().unwrap()));
    assert_eq!(Err(TryRecvError::Empty), receiver.try_recv());
    drop(sink);
    assert_eq!(Err(TryRecvError::Disconnected), receiver.try_recv());
    assert!(receiver.recv().is_err());
}

#[test]
fn a_full_spy_refuses_and_so_does_one_without_a_receiver() {
    let (receiver, sink) = SpyMetricSink::with_capacity(1);
    sink.emit("a").unwrap();
    assert_eq!("channel full", sink.emit("b").unwrap_err().to_string());
    assert!(receiver.is_full());
    assert_eq!((1, Some(1)), (receiver.len(), receiver.capacity()));
    assert_eq!("a", text(receiver.try_recv().unwrap()));
    sink.emit("c").unwrap();
    drop(receiver);
    assert_eq!("channel disconnected", sink.emit("d").unwrap_err().to_string());
}

#[test]
fn a_spy_of_capacity_0_hands_over_to_who_waits() {
    let (receiver, sink) = SpyMetricSink::with_capacity(0);
    assert_eq!("channel full", sink.emit("a").unwrap_err().to_string());
    assert!(receiver.is_empty() && receiver.is_full());
    let waiting = thread::spawn(move || receiver.recv().unwrap());
    while sink.emit("b").is_err() {
        thread::yield_now();
    }
    assert_eq!("b", text(waiting.join().unwrap()));
}

#[test]
fn a_buffered_spy_gives_packets() {
    let (receiver, sink) = BufferedSpyMetricSink::with_capacity(None, Some(16));
    assert_eq!(8, sink.emit("foo:54|c").unwrap());
    assert!(receiver.is_empty());
    assert_eq!(8, sink.emit("foo:67|c").unwrap());
    assert_eq!("foo:54|c\n", text(receiver.try_recv().unwrap()));
    sink.flush().unwrap();
    assert_eq!("foo:67|c\n", text(receiver.try_recv().unwrap()));
    sink.flush().unwrap();
    assert!(receiver.is_empty());
    sink.emit("at:drop|c").unwrap();
    drop(sink);
    assert_eq!(vec!["at:drop|c\n"], receiver.iter().map(text).collect::<Vec<_>>());
}

#[test]
fn a_packet_has_512_bytes_unless_another_capacity_is_given() {
    let (receiver, sink) = BufferedSpyMetricSink::new();
    for _ in 0..52 {
        sink.emit("ten:bytes").unwrap();
    }
    assert_eq!(510, receiver.try_recv().unwrap().len());
    assert!(receiver.is_empty());
}

#[test]
fn a_receiver_waits_for_so_long() {
    let (receiver, sink) = SpyMetricSink::new();
    assert_eq!(Err(RecvTimeoutError::Timeout), receiver.recv_timeout(Duration::from_millis(5)));
    assert_eq!(Err(RecvTimeoutError::Timeout), receiver.recv_deadline(Instant::now()));
    sink.emit("a").unwrap();
    assert_eq!("a", text(receiver.recv_timeout(Duration::from_secs(60)).unwrap()));
    sink.emit("b").unwrap();
    assert_eq!("b", text(receiver.recv_timeout(Duration::MAX).unwrap()));
    drop(sink);
    assert_eq!(Err(RecvTimeoutError::Disconnected), receiver.recv_timeout(Duration::from_secs(60)));
}

#[test]
fn a_receiver_is_read_as_a_list() {
    let (receiver, sink) = SpyMetricSink::new();
    for line in ["a", "b", "c", "d"] {
        sink.emit(line).unwrap();
    }
    assert_eq!(Some("a".to_string()), receiver.iter().next().map(text));
    assert_eq!(Some("b".to_string()), (&receiver).into_iter().next().map(text));
    assert_eq!(vec!["c", "d"], receiver.try_iter().map(text).collect::<Vec<_>>());
    sink.emit("e").unwrap();
    drop(sink);
    assert_eq!(vec!["e"], receiver.into_iter().map(text).collect::<Vec<_>>());
}

#[test]
fn clones_of_a_receiver_share_its_lines() {
    let (receiver, sink) = SpyMetricSink::new();
    let other = receiver.clone();
    assert!(receiver.same_channel(&other) && !receiver.same_channel(&SpyMetricSink::new().0));
    let waiting = thread::spawn(move || text(other.recv().unwrap()));
    // one clone waits for a message, and the other clone doesn't wait for the first one
    thread::sleep(Duration::from_millis(20));
    assert_eq!(Err(TryRecvError::Empty), receiver.try_recv());
    assert_eq!(Err(RecvTimeoutError::Timeout), receiver.recv_timeout(Duration::from_millis(5)));
    sink.emit("a").unwrap();
    assert_eq!("a", waiting.join().unwrap());
    sink.emit("b").unwrap();
    assert_eq!("b", text(receiver.recv().unwrap()));
    drop(receiver);
    assert!(sink.emit("c").is_err());
}

#[test]
fn what_a_full_receiver_refuses_is_held_and_comes_once() {
    let (receiver, sink) = BufferedSpyMetricSink::with_capacity(Some(1), Some(8));
    sink.emit("aaa").unwrap();
    sink.emit("bbb").unwrap();
    sink.emit("ccc").unwrap();
    // `aaa` and `bbb` are a packet that waits to be received, and `ccc` is held
    assert!(sink.emit("long-line").is_err());
    assert!(sink.flush().is_err());
    // after a refusal, a line that fits beside the held text is held
    sink.emit("ddd").unwrap();
    assert!(sink.emit("eee").is_err());
    assert_eq!("aaa\nbbb\n", text(receiver.recv().unwrap()));
    sink.emit("eee").unwrap();
    assert_eq!("ccc\nddd\n", text(receiver.recv().unwrap()));
    drop(sink);
    assert_eq!(vec!["eee\n"], receiver.iter().map(text).collect::<Vec<_>>());
}

#[test]
fn a_capacity_past_the_memory_is_refused() {
    let socket = || std::net::UdpSocket::bind("127.0.0.1:0").unwrap();
    let error = cadence::BufferedUdpMetricSink::with_capacity("127.0.0.1:9", socket(), usize::MAX).unwrap_err();
    assert_eq!("out of memory", error.to_string());
    assert!(std::panic::catch_unwind(|| BufferedSpyMetricSink::with_capacity(None, Some(usize::MAX))).is_err());
}

#[test]
fn a_clone_that_polls_never_waits_for_a_clone_that_waits() {
    let (receiver, sink) = SpyMetricSink::new();
    let (waiting, polling, tries) = (receiver.clone(), receiver, Arc::new(AtomicU64::new(0)));
    let counted = Arc::clone(&tries);
    thread::spawn(move || waiting.iter().for_each(drop));
    thread::spawn(move || {
        while polling.try_recv() != Err(TryRecvError::Disconnected) {
            counted.fetch_add(1, Ordering::SeqCst);
        }
    });
    for _ in 0..40 {
        (0..50).for_each(|_| assert!(sink.emit("x").is_ok()));
        thread::sleep(Duration::from_millis(5));
        let (before, start) = (tries.load(Ordering::SeqCst), Instant::now());
        while tries.load(Ordering::SeqCst) == before {
            assert!(start.elapsed() < Duration::from_secs(10), "try_recv waits");
            thread::yield_now();
        }
    }
}
