// SPDX-License-Identifier: MIT OR Apache-2.0
//! Addresses of names, looked up once or again and again.
use crate::sync::run_to_end;
use crate::types::{ErrorKind, MetricError, MetricResult};
use std::fmt;
use std::io;
use std::net::{SocketAddr, ToSocketAddrs, UdpSocket};
use std::panic::RefUnwindSafe;
use std::sync::mpsc::{self, RecvTimeoutError};
use std::sync::{Arc, PoisonError, RwLock};
use std::time::Duration;

/// Receives the errors of lookups after the first one.
pub(crate) type LookupHandler = Box<dyn Fn(io::Error) + Sync + Send + RefUnwindSafe>;

/// The address to which packets are sent. The drop ends the thread that looks it up, if there is one.
#[derive(Debug)]
pub(crate) enum Resolver {
    Once(SocketAddr),
    /// The address that was found last, and a channel whose end ends the thread.
    Periodic {
        address: Arc<RwLock<SocketAddr>>,
        _channel: mpsc::Sender<()>,
    },
}

/// Returns the first address of a name that has the family of the socket, to which alone it can send, or the first one.
fn first_address<A: ToSocketAddrs>(name: &A, family: Option<bool>) -> io::Result<Option<SocketAddr>> {
    let mut addresses = name.to_socket_addrs()?;
    let first = addresses.next();
    let fits = |address: &SocketAddr| family.is_none_or(|is_ipv4| is_ipv4 == address.is_ipv4());
    Ok(first.filter(fits).or_else(|| addresses.find(fits)).or(first))
}

/// Returns whether the socket is one of IPv4, if the system says so.
fn family_of(socket: &UdpSocket) -> Option<bool> {
    socket.local_addr().ok().map(|address| address.is_ipv4())
}

/// Returns the first address of IPv4, or if there is none the first one. Most servers listen on IPv4 alone, also on a
/// machine whose `localhost` has both families. If only addresses of IPv6 are looked up, it is the first one of IPv6.
pub(crate) fn found_address<A: ToSocketAddrs>(name: &A, only_ipv6: bool) -> io::Result<Option<SocketAddr>> {
    Ok(first_address(name, Some(!only_ipv6))?.filter(|address| !only_ipv6 || address.is_ipv6()))
}

impl Resolver {
    /// Looks the name up once, now, for a socket.
    pub(crate) fn once<A: ToSocketAddrs>(name: &A, socket: &UdpSocket) -> MetricResult<Self> {
        first_address(name, family_of(socket))?.ok_or_else(no_address).map(Resolver::Once)
    }

    /// Looks the name up now. If there is a period, a thread looks it up again each time that the period has passed.
    pub(crate) fn new<A: ToSocketAddrs + fmt::Debug + Send + Sync + RefUnwindSafe + 'static>(
        name: A,
        socket: &UdpSocket,
        period: Option<Duration>,
        errors: Option<LookupHandler>,
    ) -> MetricResult<Self> {
        let once = Self::once(&name, socket)?;
        let family = family_of(socket);
        let Some(period) = period else { return Ok(once) };
        let (address, (channel, ended)) = (Arc::new(RwLock::new(once.address())), mpsc::channel());
        let known = Arc::clone(&address);
        run_to_end(move || {
            while ended.recv_timeout(period) == Err(RecvTimeoutError::Timeout) {
                match (look_up(&name, family), &errors) {
                    (Ok(address), _) => *known.write().unwrap_or_else(PoisonError::into_inner) = address,
                    (Err(error), Some(handler)) => handler(error),
                    (Err(_), None) => {}
                }
            }
        })?;
        Ok(Resolver::Periodic { address, _channel: channel })
    }

    /// Returns the address that was found last.
    #[inline]
    pub(crate) fn address(&self) -> SocketAddr {
        match self {
            Resolver::Once(address) => *address,
            Resolver::Periodic { address, .. } => *address.read().unwrap_or_else(PoisonError::into_inner),
        }
    }
}

/// Returns the error of a name without an address.
pub(crate) fn no_address() -> MetricError {
    MetricError::from((ErrorKind::InvalidInput, "No socket addresses yielded"))
}

/// Looks a name up again.
fn look_up<A: ToSocketAddrs + fmt::Debug>(name: &A, family: Option<bool>) -> io::Result<SocketAddr> {
    let text = || format!("{name:?} did not resolve to any addresses");
    first_address(name, family)?.ok_or_else(|| io::Error::new(io::ErrorKind::NotFound, text()))
}
