// SPDX-License-Identifier: MIT OR Apache-2.0
// Cargo.toml: cadence = { path = "cadence_c-0.9.0/bindings/rust" } (the build finds the library in the same archive)
use cadence::prelude::*;
use cadence::{BufferedUdpMetricSink, StatsdClient};

fn main() -> Result<(), Box<dyn std::error::Error>> {
    let socket = std::net::UdpSocket::bind("0.0.0.0:0")?;
    let sink = BufferedUdpMetricSink::from("127.0.0.1:8125", socket)?;
    let client = StatsdClient::builder("my.service", sink).with_tag("env", "prod").build();
    client.incr("visits")?;
    client.gauge_with_tags("load", 1.25).with_tag("page", "home").send();
    client.flush()?;
    Ok(())
}
