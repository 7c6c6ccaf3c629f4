// SPDX-License-Identifier: MIT OR Apache-2.0
//! The sinks over UDP.
use cadence::prelude::*;
use cadence::{BufferedUdpMetricSink, ErrorKind, MetricSink, StatsdClient, UdpMetricSink};
use std::io;
use std::net::{SocketAddr, UdpSocket};
use std::time::Duration;

/// The length in bytes of the longest line that a datagram of IPv4 can have.
const LONGEST: usize = 65_507;

fn server() -> (UdpSocket, SocketAddr) {
    let server = UdpSocket::bind("127.0.0.1:0").unwrap();
    server.set_read_timeout(Some(Duration::from_secs(60))).unwrap();
    let address = server.local_addr().unwrap();
    (server, address)
}

fn socket() -> UdpSocket {
    UdpSocket::bind("127.0.0.1:0").unwrap()
}

fn packet(server: &UdpSocket) -> String {
    let mut packet = vec![0; 1 << 16];
    let size = server.recv(&mut packet).unwrap();
    String::from_utf8(packet[..size].to_vec()).unwrap()
}

fn nothing_more(server: &UdpSocket) {
    server.set_nonblocking(true).unwrap();
    assert_eq!(io::ErrorKind::WouldBlock, server.recv(&mut [0; 8]).unwrap_err().kind());
}

#[test]
fn a_line_is_a_datagram() {
    let (server, address) = server();
    let sink = UdpMetricSink::from(address, socket()).unwrap();
    assert_eq!(7, sink.emit("buz:1|m").unwrap());
    assert_eq!("buz:1|m", packet(&server));
    StatsdClient::from_sink("p", sink).incr("k").unwrap();
    assert_eq!("p.k:1|c", packet(&server));
    nothing_more(&server);
}

#[test]
fn a_socket_that_does_not_block_sends_too() {
    let (server, address) = server();
    let socket = socket();
    socket.set_nonblocking(true).unwrap();
    let sink = UdpMetricSink::builder().build(address, socket).unwrap();
    assert_eq!(7, sink.emit("baz:1|m").unwrap());
    assert_eq!("baz:1|m", packet(&server));
}

#[test]
fn lines_are_packed() {
    let (server, address) = server();
    let sink = BufferedUdpMetricSink::with_capacity(address, socket(), 16).unwrap();
    assert_eq!(8, sink.emit("foo:54|c").unwrap());
    assert_eq!(0, sink.stats().packets_sent);
    assert_eq!(8, sink.emit("foo:67|c").unwrap());
    assert_eq!("foo:54|c\n", packet(&server));
    sink.flush().unwrap();
    assert_eq!("foo:67|c\n", packet(&server));
    for (line, sent) in
        [("fifteen-bytes-x", None), ("sixteen-bytes-xx", Some("fifteen-bytes-x\n")), ("a", Some("sixteen-bytes-xx"))]
    {
        assert_eq!(line.len(), sink.emit(line).unwrap());
        sent.into_iter().for_each(|sent| assert_eq!(sent, packet(&server)));
    }
    drop(sink);
    assert_eq!("a\n", packet(&server));
    nothing_more(&server);
}

#[test]
fn a_packet_has_512_bytes_unless_another_capacity_is_given() {
    let (server, address) = server();
    for sink in [BufferedUdpMetricSink::from(address, socket()), BufferedUdpMetricSink::builder().build(address, socket())] {
        let sink = sink.unwrap();
        (0..52).for_each(|_| assert_eq!(9, sink.emit("ten:bytes").unwrap()));
        assert_eq!(510, packet(&server).len());
        drop(sink);
        assert_eq!(10, packet(&server).len());
    }
    let sink = BufferedUdpMetricSink::builder().with_capacity(0).build(address, socket()).unwrap();
    assert_eq!(1, sink.emit("a").unwrap());
    assert_eq!("a", packet(&server));
}

#[test]
fn a_flush_of_a_client_sends_what_is_held() {
    let (server, address) = server();
    let client = StatsdClient::from_sink("p", BufferedUdpMetricSink::from(address, socket()).unwrap());
    client.count("a", 1).unwrap();
    client.count("b", 2).unwrap();
    client.flush().unwrap();
    assert_eq!("p.a:1|c\np.b:2|c\n", packet(&server));
    client.flush().unwrap();
    nothing_more(&server);
}

#[test]
fn packets_and_bytes_are_counted() {
    let (_server, address) = server();
    let plain = UdpMetricSink::from(address, socket()).unwrap();
    let packed = BufferedUdpMetricSink::with_capacity(address, socket(), 16).unwrap();
    for line in ["foo:54|c", "foo:67|c", &"x".repeat(LONGEST + 1)] {
        let _ = plain.emit(line);
        let _ = packed.emit(line);
    }
    packed.flush().unwrap();
    let (plain, packed) = (plain.stats(), packed.stats());
    assert_eq!((16, 2), (plain.bytes_sent, plain.packets_sent));
    assert_eq!((18, 2), (packed.bytes_sent, packed.packets_sent));
    for stats in [plain, packed] {
        assert_eq!((LONGEST as u64 + 1, 1), (stats.bytes_dropped, stats.packets_dropped));
    }
}

#[test]
fn a_line_past_the_longest_datagram_fails_once_and_the_sink_goes_on() {
    let (server, address) = server();
    let sink = BufferedUdpMetricSink::from(address, socket()).unwrap();
    sink.emit("before:1|c").unwrap();
    assert!(sink.emit(&"x".repeat(LONGEST + 1)).is_err());
    assert_eq!("before:1|c\n", packet(&server));
    for turn in 0..1_000 {
        sink.emit("after:1|c").unwrap_or_else(|error| panic!("call {turn}: {error}"));
    }
    sink.flush().unwrap();
    let mut lines = 0;
    while lines < 1_000 {
        lines += packet(&server).lines().filter(|line| *line == "after:1|c").count();
    }
    assert_eq!(1, sink.stats().packets_dropped);
    nothing_more(&server);
}

#[test]
fn the_longest_datagram_is_sent() {
    let (server, address) = server();
    let sink = BufferedUdpMetricSink::from(address, socket()).unwrap();
    let line = "x".repeat(LONGEST);
    assert_eq!(LONGEST, sink.emit(&line).unwrap());
    assert_eq!(line, packet(&server));
}

#[test]
fn a_packet_past_the_longest_datagram_stays_held() {
    let (_server, address) = server();
    let sink = BufferedUdpMetricSink::with_capacity(address, socket(), 2 * LONGEST).unwrap();
    let line = "x".repeat(LONGEST);
    sink.emit(&line).unwrap();
    assert!(sink.flush().is_err());
    assert!(sink.flush().is_err());
    assert!(sink.emit(&line).is_err());
    assert_eq!(3, sink.stats().packets_dropped);
}

#[test]
fn a_host_is_an_address() {
    let no_address: &[SocketAddr] = &[];
    let kind = |error: cadence::MetricError| error.kind();
    assert_eq!(ErrorKind::InvalidInput, kind(UdpMetricSink::from(no_address, socket()).unwrap_err()));
    assert_eq!(ErrorKind::InvalidInput, kind(BufferedUdpMetricSink::from(no_address, socket()).unwrap_err()));
    for name in ["no port", "127.0.0.1:port", "127.0.0.1:99999"] {
        assert_eq!(ErrorKind::IoError, kind(UdpMetricSink::from(name, socket()).unwrap_err()), "{name}");
        assert_eq!(ErrorKind::IoError, kind(UdpMetricSink::builder().build(name, socket()).unwrap_err()), "{name}");
    }
    assert!(UdpMetricSink::from(("127.0.0.1", cadence::DEFAULT_PORT), socket()).is_ok());
}
