// SPDX-License-Identifier: MIT OR Apache-2.0
//! Lookups again and again.
use cadence::{BufferedUdpMetricSink, ErrorKind, MetricSink, UdpMetricSink};
use std::io;
use std::net::{SocketAddr, ToSocketAddrs, UdpSocket};
use std::sync::mpsc::{channel, Sender};
use std::sync::{Arc, Mutex};
use std::time::{Duration, Instant};
use std::vec;

const LONG: Duration = Duration::from_secs(60);

/// A host whose lookups have these results; every later lookup has the last one. A flag says when the host was dropped.
#[derive(Debug)]
struct Host {
    answers: Mutex<Vec<Result<Vec<SocketAddr>, io::ErrorKind>>>,
    dropped: Mutex<Sender<()>>,
}

impl ToSocketAddrs for Host {
    type Iter = vec::IntoIter<SocketAddr>;

    fn to_socket_addrs(&self) -> io::Result<Self::Iter> {
        let mut answers = self.answers.lock().unwrap();
        let answer = if answers.len() > 1 { answers.remove(0) } else { answers[0].clone() };
        answer.map(Vec::into_iter).map_err(|kind| io::Error::new(kind, "lookup failed"))
    }
}

impl Drop for Host {
    fn drop(&mut self) {
        let _ = self.dropped.lock().unwrap().send(());
    }
}

fn host(answers: Vec<Result<Vec<SocketAddr>, io::ErrorKind>>) -> (Host, std::sync::mpsc::Receiver<()>) {
    let (dropped, told) = channel();
    (Host { answers: Mutex::new(answers), dropped: Mutex::new(dropped) }, told)
}

fn server() -> (UdpSocket, SocketAddr) {
    let server = UdpSocket::bind("127.0.0.1:0").unwrap();
    server.set_read_timeout(Some(LONG)).unwrap();
    let address = server.local_addr().unwrap();
    (server, address)
}

fn socket() -> UdpSocket {
    UdpSocket::bind("127.0.0.1:0").unwrap()
}

fn received(server: &UdpSocket) -> Vec<u8> {
    let mut packet = [0; 64];
    let size = server.recv(&mut packet).unwrap();
    packet[..size].to_vec()
}

#[test]
fn an_address_of_the_sockets_family_comes_first() {
    let (server, address) = server();
    let other: SocketAddr = ("::1".parse::<std::net::IpAddr>().unwrap(), address.port()).into();
    for period in [None, Some(Duration::from_millis(2))] {
        let (host, _) = host(vec![Ok(vec![other, address]), Ok(vec![other, other, address])]);
        let builder = UdpMetricSink::builder();
        let builder = period.into_iter().fold(builder, |builder, period| builder.with_resolver_period(period));
        let sink = builder.build(host, socket()).unwrap();
        for _ in 0..10 {
            sink.emit("a").unwrap();
            assert_eq!(b"a".to_vec(), received(&server));
            std::thread::sleep(Duration::from_millis(1));
        }
    }
    // A name that has only the other family is not refused here; its packets are.
    assert!(UdpMetricSink::from(other, socket()).unwrap().emit("a").is_err());
}

#[test]
fn a_first_lookup_that_fails_makes_no_sink() {
    for period in [None, Some(LONG)] {
        for (answer, kind) in [(Err(io::ErrorKind::TimedOut), ErrorKind::IoError), (Ok(vec![]), ErrorKind::InvalidInput)] {
            let mut builder = UdpMetricSink::builder();
            if let Some(period) = period {
                builder = builder.with_resolver_period(period);
            }
            let error = builder.build(host(vec![answer]).0, socket()).unwrap_err();
            assert_eq!(kind, error.kind());
        }
    }
}

#[test]
fn packets_go_to_the_address_that_was_found_last() {
    let ((old, old_address), (new, new_address)) = (server(), server());
    let answers = || vec![Ok(vec![old_address, new_address]), Ok(vec![old_address]), Ok(vec![new_address])];
    let plain = UdpMetricSink::builder().with_resolver_period(Duration::from_millis(5));
    let packed = BufferedUdpMetricSink::builder().with_capacity(0).with_resolver_period(Duration::from_millis(5));
    let sinks: [Box<dyn MetricSink>; 2] = [
        Box::new(plain.build(host(answers()).0, socket()).unwrap()),
        Box::new(packed.build(host(answers()).0, socket()).unwrap()),
    ];
    for sink in sinks {
        let start = Instant::now();
        new.set_nonblocking(true).unwrap();
        let mut packet = [0; 8];
        while new.recv(&mut packet).is_err() {
            assert!(start.elapsed() < LONG, "the address never changes");
            sink.emit("a").unwrap();
        }
        new.set_nonblocking(false).unwrap();
        sink.emit("b").unwrap();
        while received(&new) != b"b" {}
    }
    drop(old);
}

#[test]
fn without_a_period_a_name_is_looked_up_once() {
    let (server, address) = server();
    let (host, _) = host(vec![Ok(vec![address]), Err(io::ErrorKind::TimedOut)]);
    let handler = |_| panic!("no lookup may fail");
    let sink = UdpMetricSink::builder().with_resolver_error_handler(handler).build(host, socket()).unwrap();
    sink.emit("a").unwrap();
    assert_eq!(b"a".to_vec(), received(&server));
}

#[test]
fn the_handler_gets_the_errors_and_the_address_stays() {
    let (server, address) = server();
    let (host, _) = host(vec![Ok(vec![address]), Err(io::ErrorKind::TimedOut), Ok(vec![])]);
    let (tell, told) = channel();
    let tell = Arc::new(Mutex::new(tell));
    let sink = BufferedUdpMetricSink::builder()
        .with_resolver_period(Duration::from_millis(2))
        .with_resolver_error_handler(move |error| {
            let _ = tell.lock().unwrap().send(error.kind());
        })
        .build(host, socket())
        .unwrap();
    assert_eq!(io::ErrorKind::TimedOut, told.recv_timeout(LONG).unwrap());
    assert_eq!(io::ErrorKind::NotFound, told.recv_timeout(LONG).unwrap());
    sink.emit("a").unwrap();
    sink.flush().unwrap();
    assert_eq!(b"a\n".to_vec(), received(&server));
}

#[test]
fn a_handler_that_panics_does_not_end_the_lookups() {
    let ((_old, old_address), (new, new_address)) = (server(), server());
    let (host, _) = host(vec![Ok(vec![old_address]), Err(io::ErrorKind::TimedOut), Ok(vec![new_address])]);
    let sink = UdpMetricSink::builder()
        .with_resolver_period(Duration::from_millis(2))
        .with_resolver_error_handler(|_| panic!("this handler is meant to panic"))
        .build(host, socket())
        .unwrap();
    new.set_nonblocking(true).unwrap();
    let start = Instant::now();
    while new.recv(&mut [0; 8]).is_err() {
        assert!(start.elapsed() < LONG, "the lookups ended");
        sink.emit("a").unwrap();
    }
}

#[test]
fn the_thread_ends_with_the_sink() {
    let (_server, address) = server();
    let (host, dropped) = host(vec![Ok(vec![address])]);
    let sink = UdpMetricSink::builder().with_resolver_period(Duration::MAX).build(host, socket()).unwrap();
    assert!(dropped.try_recv().is_err());
    drop(sink);
    dropped.recv_timeout(LONG).unwrap();
}
