// SPDX-License-Identifier: MIT OR Apache-2.0
//! Names that are looked up again, by a resolver of the test.
use super::{HostSink, Periods};
use crate::sinks::MetricSink;
use std::io;
use std::net::{IpAddr, SocketAddr, ToSocketAddrs, UdpSocket};
use std::sync::{Arc, Mutex};
use std::time::{Duration, Instant};
use std::vec;

const LONG: Duration = Duration::from_secs(60);
const SHORT: Duration = Duration::from_millis(2);

/// A name with the addresses that a test says, and with none if its lookup fails. It counts its lookups.
#[derive(Clone, Default)]
struct Name(Arc<Mutex<(Vec<IpAddr>, u32)>>, u16);

impl Name {
    fn of(addresses: &str, port: u16) -> Name {
        let name = Name(Arc::default(), port);
        name.is_now(addresses);
        name
    }

    fn is_now(&self, addresses: &str) {
        self.0.lock().unwrap().0 = addresses.split_whitespace().map(|text| text.parse().unwrap()).collect();
    }

    fn lookups(&self) -> u32 {
        self.0.lock().unwrap().1
    }
}

impl ToSocketAddrs for Name {
    type Iter = vec::IntoIter<SocketAddr>;

    fn to_socket_addrs(&self) -> io::Result<Self::Iter> {
        let mut name = self.0.lock().unwrap();
        name.1 += 1;
        if name.0.is_empty() {
            return Err(io::Error::new(io::ErrorKind::NotFound, "the lookup fails"));
        }
        Ok(name.0.iter().map(|ip| SocketAddr::new(*ip, self.1)).collect::<Vec<_>>().into_iter())
    }
}

fn server(address: &str) -> Option<(UdpSocket, u16)> {
    let server = UdpSocket::bind((address, 0)).ok()?;
    server.set_nonblocking(true).unwrap();
    let port = server.local_addr().unwrap().port();
    Some((server, port))
}

/// Sends until the server receives.
fn reaches(sink: &HostSink, server: &UdpSocket) {
    let start = Instant::now();
    while server.recv(&mut [0; 8]).is_err() {
        assert!(start.elapsed() < LONG, "nothing arrives");
        let _ = sink.emit("a:1|c");
    }
}

fn often(after_lookup: Duration, after_refusal: Duration) -> Option<Periods> {
    Some(Periods { after_lookup, after_refusal })
}

#[test]
fn the_address_of_each_row_is_sent_to() {
    // An archive has the file of the rows beside this crate, the repository where its own test reads it.
    let places = ["../addresses.rows", "../../crates/test_calls/data/addresses.rows"];
    let read = |place| std::fs::read_to_string(format!("{}/{place}", env!("CARGO_MANIFEST_DIR")));
    let rows = places.iter().find_map(|place| read(place).ok()).unwrap();
    let mut seen = 0;
    for (given, wanted) in rows.lines().filter_map(|row| row.split_once(" -> ")).filter(|(given, _)| !given.starts_with('#')) {
        seen += 1;
        // Without IPv6 there is no such server.
        let Some((server, port)) = server(wanted) else { continue };
        let now = HostSink::new(Name::of(given, port), false, None).unwrap();
        now.emit("a:1|c").unwrap();
        reaches(&now, &server);
        let name = Name::of("127.0.0.9", port);
        let later = HostSink::new(name.clone(), false, often(SHORT, SHORT)).unwrap();
        name.is_now(given);
        reaches(&later, &server);
    }
    assert!(seen >= 5, "{seen}");
}

#[test]
fn of_ipv6_alone_no_other_address_is_sent_to() {
    assert!(HostSink::new(Name::of("127.0.0.1", 9), true, None).is_err());
    let Some((server, port)) = server("::1") else { return };
    let name = Name::of("127.0.0.1 ::1", port);
    let sink = HostSink::new(name.clone(), true, often(SHORT, SHORT)).unwrap();
    reaches(&sink, &server);
    name.is_now("127.0.0.1");
    let before = name.lookups();
    while name.lookups() < before + 3 {
        std::thread::sleep(SHORT);
    }
    reaches(&sink, &server);
}

#[test]
fn a_lookup_that_fails_keeps_the_address() {
    let (server, port) = server("127.0.0.1").unwrap();
    let name = Name::of("127.0.0.1", port);
    let sink = HostSink::new(name.clone(), false, often(SHORT, LONG)).unwrap();
    name.is_now("");
    let before = name.lookups();
    while name.lookups() < before + 3 {
        std::thread::sleep(SHORT);
    }
    assert_eq!(5, sink.emit("a:1|c").unwrap());
    reaches(&sink, &server);
    assert!(HostSink::new(name, false, None).is_err());
}

#[test]
fn a_refusal_lets_the_name_be_looked_up_soon() {
    let (server, port) = server("127.0.0.1").unwrap();
    // The system refuses to send there.
    let name = Name::of("255.255.255.255", port);
    let sink = HostSink::new(name.clone(), false, often(LONG, SHORT)).unwrap();
    name.is_now("127.0.0.1");
    assert!(sink.emit("a:1|c").is_err());
    reaches(&sink, &server);
    // A packet that is refused while the name is looked up lets it be looked up once more.
    assert!((2..=3).contains(&name.lookups()), "{}", name.lookups());
    assert!(sink.stats().packets_dropped > 0);
}

#[test]
fn a_refusal_and_an_hour_make_no_lookup() {
    let name = Name::of("255.255.255.255", 9);
    let sink = HostSink::new(name.clone(), false, often(LONG, LONG)).unwrap();
    for _ in 0..10 {
        assert!(sink.emit("a:1|c").is_err());
    }
    std::thread::sleep(Duration::from_millis(20));
    assert_eq!(1, name.lookups());
    let usual = Periods::USUAL;
    assert_eq!((60, 1), (usual.after_lookup.as_secs(), usual.after_refusal.as_secs()));
}

#[test]
fn the_drop_ends_the_thread() {
    let name = Name::of("127.0.0.1", 9);
    let sink = HostSink::new(name.clone(), false, often(LONG, LONG)).unwrap();
    assert_eq!(2, Arc::strong_count(&name.0));
    drop(sink);
    let start = Instant::now();
    while Arc::strong_count(&name.0) > 1 {
        assert!(start.elapsed() < LONG, "the thread goes on");
    }
}
