// SPDX-License-Identifier: MIT OR Apache-2.0
//! The sinks over Unix datagram sockets.
#![cfg(unix)]
use cadence::prelude::*;
use cadence::{BufferedUnixMetricSink, MetricSink, StatsdClient, UnixMetricSink};
use std::fs;
use std::io;
use std::os::unix::net::UnixDatagram;
use std::path::{Path, PathBuf};
use std::sync::atomic::{AtomicU32, Ordering};
use std::time::Duration;

/// A folder for one test, which is removed when this value is dropped.
struct Folder(PathBuf);

impl Folder {
    fn new() -> Self {
        static NEXT: AtomicU32 = AtomicU32::new(0);
        let name = format!("cadence-{}-{}", std::process::id(), NEXT.fetch_add(1, Ordering::SeqCst));
        let folder = std::env::temp_dir().join(name);
        fs::create_dir_all(&folder).unwrap();
        Folder(folder)
    }

    fn path(&self) -> PathBuf {
        self.0.join("statsd.sock")
    }
}

impl Drop for Folder {
    fn drop(&mut self) {
        let _ = fs::remove_dir_all(&self.0);
    }
}

fn server(path: &Path) -> UnixDatagram {
    let server = UnixDatagram::bind(path).unwrap();
    server.set_read_timeout(Some(Duration::from_secs(60))).unwrap();
    server
}

fn socket() -> UnixDatagram {
    UnixDatagram::unbound().unwrap()
}

fn packet(server: &UnixDatagram) -> String {
    let mut packet = vec![0; 4096];
    let size = server.recv(&mut packet).unwrap();
    String::from_utf8(packet[..size].to_vec()).unwrap()
}

#[test]
fn a_line_is_a_datagram() {
    let folder = Folder::new();
    let server = server(&folder.path());
    let sink = UnixMetricSink::from(folder.path(), socket());
    assert_eq!(7, sink.emit("buz:1|m").unwrap());
    assert_eq!("buz:1|m", packet(&server));
    StatsdClient::from_sink("p", sink).incr("k").unwrap();
    assert_eq!("p.k:1|c", packet(&server));
}

#[test]
fn a_socket_that_does_not_block_refuses_what_its_server_has_no_room_for() {
    let folder = Folder::new();
    let server = server(&folder.path());
    let socket = socket();
    socket.set_nonblocking(true).unwrap();
    let sink = UnixMetricSink::from(folder.path(), socket);
    let mut sent = 0;
    let refused = loop {
        match sink.emit("buz:1|m") {
            Ok(size) => sent += size / 7,
            Err(error) => break error,
        }
    };
    assert_eq!(io::ErrorKind::WouldBlock, refused.kind());
    (0..sent).for_each(|_| assert_eq!("buz:1|m", packet(&server)));
    assert_eq!(7, sink.emit("baz:1|m").unwrap());
    assert_eq!("baz:1|m", packet(&server));
}

#[test]
fn lines_are_packed() {
    let folder = Folder::new();
    let server = server(&folder.path());
    let sink = BufferedUnixMetricSink::with_capacity(folder.path(), socket(), 16);
    assert_eq!(8, sink.emit("foo:54|c").unwrap());
    assert_eq!(8, sink.emit("foo:67|c").unwrap());
    assert_eq!("foo:54|c\n", packet(&server));
    sink.flush().unwrap();
    assert_eq!("foo:67|c\n", packet(&server));
    assert_eq!(20, sink.emit("more-than-the-packet").unwrap());
    assert_eq!("more-than-the-packet", packet(&server));
    sink.emit("a").unwrap();
    let stats = sink.stats();
    assert_eq!((38, 3, 0), (stats.bytes_sent, stats.packets_sent, stats.packets_dropped));
    drop(sink);
    assert_eq!("a\n", packet(&server));
}

#[test]
fn a_packet_has_512_bytes_unless_another_capacity_is_given() {
    let folder = Folder::new();
    let server = server(&folder.path());
    let sink = BufferedUnixMetricSink::from(folder.path(), socket());
    (0..52).for_each(|_| assert_eq!(9, sink.emit("ten:bytes").unwrap()));
    assert_eq!(510, packet(&server).len());
}

#[test]
fn nobody_at_the_path_is_an_error() {
    let folder = Folder::new();
    let sink = UnixMetricSink::from(folder.path(), socket());
    assert!(sink.emit("a").is_err());
    assert_eq!((1, 1), (sink.stats().bytes_dropped, sink.stats().packets_dropped));
    let server = server(&folder.path());
    sink.emit("b").unwrap();
    assert_eq!("b", packet(&server));
}

#[test]
fn a_line_whose_call_failed_is_not_sent() {
    let folder = Folder::new();
    let sink = BufferedUnixMetricSink::with_capacity(folder.path(), socket(), 16);
    sink.emit("first:1|c").unwrap();
    for _ in 0..3 {
        assert!(sink.emit("second:1|c").is_err());
    }
    // the held text stays held, and a line that fits beside it is held too
    assert!(sink.flush().is_err());
    assert_eq!(4, sink.stats().packets_dropped);
    sink.emit("3:1|c").unwrap();
    let server = server(&folder.path());
    sink.emit("second:1|c").unwrap();
    assert_eq!("first:1|c\n3:1|c\n", packet(&server));
    sink.flush().unwrap();
    assert_eq!("second:1|c\n", packet(&server));
    assert_eq!((2, 27), (sink.stats().packets_sent, sink.stats().bytes_sent));
}

#[test]
fn an_over_long_line_that_is_refused_is_dropped() {
    let folder = Folder::new();
    let sink = BufferedUnixMetricSink::with_capacity(folder.path(), socket(), 8);
    assert!(sink.emit("too-long-for-it").is_err());
    sink.emit("held").unwrap();
    assert!(sink.emit("too-long-for-it").is_err());
    let server = server(&folder.path());
    sink.emit("another-long-one").unwrap();
    assert_eq!("held\n", packet(&server));
    assert_eq!("another-long-one", packet(&server));
    assert_eq!((2, 20), (sink.stats().packets_dropped, sink.stats().bytes_dropped));
}

#[test]
fn a_sink_is_dropped_though_nobody_is_there() {
    let folder = Folder::new();
    let sink = BufferedUnixMetricSink::from(folder.path(), socket());
    sink.emit("a").unwrap();
    drop(sink);
}

#[test]
fn an_agent_may_start_again() {
    let folder = Folder::new();
    let socket = UnixDatagram::unbound().unwrap();
    let sink = BufferedUnixMetricSink::from(folder.path(), socket);
    for number in 0..3 {
        let server = server(&folder.path());
        sink.emit(&format!("a{number}:1|c")).unwrap();
        sink.flush().unwrap();
        let mut packet = [0; 64];
        let size = server.recv(&mut packet).unwrap();
        let missed = if number == 0 { String::new() } else { format!("b{}:1|c\n", number - 1) };
        assert_eq!(format!("{missed}a{number}:1|c\n").as_bytes(), &packet[..size]);
        drop(server);
        sink.emit(&format!("b{number}:1|c")).unwrap();
        assert_eq!(io::ErrorKind::ConnectionRefused, sink.flush().unwrap_err().kind());
        fs::remove_file(folder.path()).unwrap();
    }
}
