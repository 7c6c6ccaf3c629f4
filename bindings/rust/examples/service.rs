// SPDX-License-Identifier: MIT OR Apache-2.0
//! A small service over the crate cadence: it prints the datagrams that arrive at a socket of its own. It compiles
//! against the crate as well, and the datagrams are the same.
use cadence::prelude::*;
use cadence::{BufferedUdpMetricSink, Metric, StatsdClient};
use std::net::UdpSocket;
use std::time::Duration;

fn work(client: &StatsdClient) -> cadence::MetricResult<()> {
    for visit in 0..20 {
        client.count("visits", visit)?;
    }
    client.incr_with_tags("requests").with_tag("page", "home").with_tag_value("beta").send();
    client.time("took", Duration::from_micros(1_234_567))?;
    client.time_with_tags("took", vec![1u64, 22, 333]).with_sampling_rate(0.5).try_send()?;
    client.gauge("load", 1.25)?;
    client.meter("bytes", 18_446_744_073_709_551_615u64)?;
    client.histogram("waits", vec![Duration::from_nanos(7), Duration::from_secs(2)])?;
    client
        .distribution_with_tags("sizes", vec![0.1, 20.0, -3.5])
        .with_container_id("box-2")
        .with_timestamp(1_700_000_000)
        .try_send()?;
    let set = client.set("users", -5)?;
    println!("{}", set.as_metric_str());
    client.count(&"a.long.key.".repeat(20), -1)?;
    client.flush()
}

fn main() {
    let server = UdpSocket::bind("127.0.0.1:0").unwrap();
    server.set_nonblocking(true).unwrap();
    let socket = UdpSocket::bind("127.0.0.1:0").unwrap();
    let sink = BufferedUdpMetricSink::with_capacity(server.local_addr().unwrap(), socket, 128).unwrap();
    let client = StatsdClient::builder("my.service..", sink).with_tag("env", "prod").with_container_id("box-1").build();
    work(&client).unwrap();
    let mut packet = [0; 2048];
    while let Ok(size) = server.recv(&mut packet) {
        println!("datagram of {size} bytes\n{}", std::str::from_utf8(&packet[..size]).unwrap());
    }
}
