// SPDX-License-Identifier: MIT OR Apache-2.0
//! A sink that sends to a host whose name is looked up again and again, from a socket of its own.
use super::core::{MetricSink, SinkStats, SocketStats};
use super::resolve::{found_address, no_address};
use crate::types::MetricResult;
use std::io;
use std::net::{SocketAddr, ToSocketAddrs, UdpSocket};
use std::sync::mpsc::{self, Receiver, RecvTimeoutError, SyncSender};
use std::sync::{Arc, PoisonError, RwLock};
use std::thread;
use std::time::{Duration, Instant};

/// When a name is looked up again.
#[derive(Clone, Copy, Debug)]
pub(crate) struct Periods {
    /// How long after the last lookup.
    pub(crate) after_lookup: Duration,
    /// The same if a packet was refused since.
    pub(crate) after_refusal: Duration,
}

impl Periods {
    /// The periods in all languages.
    pub(crate) const USUAL: Periods = Periods { after_lookup: Duration::from_secs(60), after_refusal: Duration::from_secs(1) };
}

/// Where packets go: an address, and a socket of its family, which never blocks.
#[derive(Debug)]
struct Way {
    socket: UdpSocket,
    address: SocketAddr,
}

impl Way {
    fn to(address: SocketAddr) -> io::Result<Way> {
        let socket = UdpSocket::bind(if address.is_ipv4() { "0.0.0.0:0" } else { "[::]:0" })?;
        socket.set_nonblocking(true)?;
        Ok(Way { socket, address })
    }
}

/// Sends each line as a datagram, in the caller's thread. A thread looks the name up again, so that no call waits for it. If
/// a lookup fails, the address stays. The drop ends the thread.
#[derive(Debug)]
pub(crate) struct HostSink {
    way: Arc<RwLock<Way>>,
    // Tells the thread of a refused packet.
    refused: Option<SyncSender<()>>,
    stats: SocketStats,
}

impl HostSink {
    /// Looks the host up, and makes a socket. Without periods the host is an address, which is not looked up again.
    pub(crate) fn new<A: ToSocketAddrs + Send + 'static>(
        host: A,
        only_ipv6: bool,
        periods: Option<Periods>,
    ) -> MetricResult<HostSink> {
        let address = found_address(&host, only_ipv6)?.ok_or_else(no_address)?;
        let way = Arc::new(RwLock::new(Way::to(address)?));
        let refused = match periods {
            Some(periods) => {
                let (refused, told) = mpsc::sync_channel(1);
                let followed = Arc::clone(&way);
                let run = move || follow(&host, only_ipv6, &followed, &told, periods);
                thread::Builder::new().name("cadence".to_string()).spawn(run)?;
                Some(refused)
            }
            None => None,
        };
        Ok(HostSink { way, refused, stats: SocketStats::default() })
    }
}

impl MetricSink for HostSink {
    fn emit(&self, metric: &str) -> io::Result<usize> {
        let way = self.way.read().unwrap_or_else(PoisonError::into_inner);
        let result = way.socket.send_to(metric.as_bytes(), way.address);
        if let (Err(_), Some(refused)) = (&result, &self.refused) {
            // If there is no room, the thread was told already.
            let _ = refused.try_send(());
        }
        self.stats.update(result, metric.len())
    }

    fn stats(&self) -> SinkStats {
        (&self.stats).into()
    }
}

/// Looks a name up again and again, until the sink is dropped.
fn follow<A: ToSocketAddrs>(host: &A, only_ipv6: bool, way: &RwLock<Way>, told: &Receiver<()>, periods: Periods) {
    loop {
        let last = Instant::now();
        match told.recv_timeout(periods.after_lookup) {
            Err(RecvTimeoutError::Disconnected) => return,
            Err(RecvTimeoutError::Timeout) => {}
            Ok(()) => loop {
                match told.recv_timeout(periods.after_refusal.saturating_sub(last.elapsed())) {
                    Err(RecvTimeoutError::Disconnected) => return,
                    Err(RecvTimeoutError::Timeout) => break,
                    Ok(()) => {}
                }
            },
        }
        move_to(found_address(host, only_ipv6), way);
    }
}

/// Sends from now on to the address that was found, if it is another one.
fn move_to(found: io::Result<Option<SocketAddr>>, way: &RwLock<Way>) {
    let Ok(Some(address)) = found else { return };
    if way.read().unwrap_or_else(PoisonError::into_inner).address == address {
        return;
    }
    if let Ok(to) = Way::to(address) {
        *way.write().unwrap_or_else(PoisonError::into_inner) = to;
    }
}

#[cfg(test)]
#[path = "../../tests/unit/host.rs"]
mod tests;
