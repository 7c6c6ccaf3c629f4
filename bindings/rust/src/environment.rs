// SPDX-License-Identifier: MIT OR Apache-2.0
//! What the variables of the environment say about a client.
use crate::client::{StatsdClient, StatsdClientBuilder};
use crate::layout::{Variables, ORIGIN, VARIABLES};
use crate::raw::{
    destination, environment_cardinality, environment_container, environment_external, environment_prefix, environment_tags,
    variable_text,
};
use crate::sinks::{Buffer, BufferedUnixMetricSink, HostSink, NopMetricSink, Periods};
use crate::types::{Cardinality, MetricResult};
use std::ffi::OsString;
use std::net::IpAddr;
use std::os::unix::ffi::OsStrExt;
use std::os::unix::fs::MetadataExt;
use std::os::unix::net::UnixDatagram;
use std::path::Path;
use std::{env, error, fmt, fs};

/// The number of the control groups of the host.
const HOST: u64 = 4_026_531_835;

/// All cardinalities. Each is, as an integer, the number that the library has for it.
const CARDINALITIES: [Cardinality; 4] = [Cardinality::NoTags, Cardinality::Low, Cardinality::Orchestrator, Cardinality::High];

/// Where a client sends.
#[derive(Clone, Debug, PartialEq, Eq)]
pub enum Target {
    /// To a host, which is a name or an address without brackets, and a port, by UDP.
    Udp(String, u16),
    /// To a Unix datagram socket at an absolute path.
    Unix(String),
    /// Nowhere: nothing is sent.
    Nowhere,
}

/// What the variables of the environment say about a client: where it sends, how many bytes its packets have, its prefix,
/// its default tags, and by what a Datadog agent adds more tags.
///
/// A variable that is empty counts as not set, and a variable that another one overrides isn't read.
///
/// | Variable | What it sets |
/// |---|---|
/// | `DD_DOGSTATSD_URL` | where to send: `udp://HOST`, `udp://HOST:PORT`, or `unix:///PATH`, also written `unixgram:///PATH` |
/// | `DD_DOGSTATSD_SOCKET` | the absolute path of a Unix datagram socket, if `DD_DOGSTATSD_URL` isn't set |
/// | `DD_AGENT_HOST`, `DD_DOGSTATSD_PORT` | the host and the port, if neither of the two above is set |
/// | `STATSD_HOST`, `STATSD_PORT` | the host and the port, if none of the four above is set |
/// | `DD_DOGSTATSD_DISABLE`, `STATSD_ENABLED` | that nothing is sent, if the first says `1`, `true`, `True` or `yes`, or the second `0`, `false`, `False` or `no` |
/// | `STATSD_MAXUDPSIZE` | how many bytes a packet has over UDP, from 1 to 65507; by default 1432 |
/// | `STATSD_IPV6` | that the host is looked up for addresses of IPv6 alone, if it says `1`, `true`, `True` or `yes` |
/// | `STATSD_PREFIX` | the prefix, for a caller that has none of its own |
/// | `DD_ENV`, `DD_SERVICE`, `DD_VERSION` | the tags `env:..`, `service:..` and `version:..`, in this order |
/// | `DD_TAGS` | the next tags, separated by commas, or by spaces if it has no comma; each is `K:V`, cut at its first colon, or `V` |
/// | `DD_ENTITY_ID` | the last tag, `dd.internal.entity_id:..` |
/// | `DD_ORIGIN_DETECTION_ENABLED` | the default container and external data, which are those of the process, if it says `1`, `true`, `True` or `yes` |
/// | `DD_EXTERNAL_ENV` | the external data of the process, which are sent without bars and control characters of ASCII |
/// | `DD_CARDINALITY` | the default cardinality: `none`, `low`, `orchestrator` or `high` |
/// | `DATADOG_CARDINALITY` | the default cardinality, if `DD_CARDINALITY` isn't set |
///
/// Of a host and a port, one alone leaves the other as it is by default: 127.0.0.1 and 8125. A tag of `DD_TAGS` with the
/// key `env`, `service` or `version` is left out if `DD_ENV`, `DD_SERVICE` or `DD_VERSION` is set.
///
/// ```
/// use std::collections::HashMap;
/// use cadence::{Environment, Target};
///
/// let set = HashMap::from([("DD_AGENT_HOST", "agent.internal"), ("DD_ENV", "prod"), ("DD_TAGS", "team:a,beta")]);
/// let environment = Environment::read_from(|name| set.get(name).map(Into::into)).unwrap();
/// assert_eq!(&Target::Udp("agent.internal".to_string(), 8125), environment.target());
/// assert_eq!([Some("env"), Some("team"), None], [0, 1, 2].map(|i| environment.tags()[i].0.as_deref()));
/// ```
#[derive(Clone, Debug, PartialEq, Eq)]
pub struct Environment {
    target: Target,
    capacity: usize,
    only_ipv6: bool,
    prefix: String,
    tags: Vec<(Option<String>, String)>,
    container: Option<String>,
    external: Option<String>,
    cardinality: Option<Cardinality>,
}

/// The error of a variable that can't be used. Its text has the name of the variable, and says what the value has to
/// be.
#[derive(Clone, Debug, PartialEq, Eq)]
pub struct EnvironmentError {
    variable: &'static str,
    text: String,
}

impl EnvironmentError {
    /// Returns the name of the variable.
    pub fn variable(&self) -> &'static str {
        self.variable
    }
}

/// Prints the name of the variable, and what its value has to be.
impl fmt::Display for EnvironmentError {
    fn fmt(&self, f: &mut fmt::Formatter<'_>) -> fmt::Result {
        f.write_str(&self.text)
    }
}

impl error::Error for EnvironmentError {}

/// Returns the error of the variable of this number.
fn fault_of(number: u32) -> EnvironmentError {
    EnvironmentError { variable: VARIABLES[number as usize], text: variable_text(number) }
}

/// Returns the tags of a tags' text: after its first two characters, with commas between them, each cut at its first
/// colon.
fn tags_of(text: &str) -> Vec<(Option<String>, String)> {
    let tags = text.strip_prefix("|#").into_iter().flat_map(|tags| tags.split(','));
    tags.map(|tag| match tag.split_once(':') {
        Some((key, text)) => (Some(key.to_string()), text.to_string()),
        None => (None, tag.to_string()),
    })
    .collect()
}

/// Returns what the system says of the control groups of the process. What can't be read is empty.
fn control_groups() -> Vec<u8> {
    fs::read("/proc/self/cgroup").unwrap_or_default()
}

/// Returns the number of the directory of the control group of version 2, or 0 if the process is in those of the host.
fn inode_of(groups: &[u8]) -> u64 {
    let inode = |path: &[u8]| fs::metadata(Path::new(std::ffi::OsStr::from_bytes(path))).map_or(0, |data| data.ino());
    let own = groups.split(|byte| *byte == b'\n').find_map(|line| line.strip_prefix(b"0::"));
    match own {
        Some(path) if inode(b"/proc/self/ns/cgroup") != HOST => inode(&[b"/sys/fs/cgroup", path].concat()),
        _ => 0,
    }
}

impl Environment {
    /// Reads the variables of the process. It fails if a variable can't be used; the error says which one, and what its
    /// value has to be.
    pub fn read() -> Result<Environment, EnvironmentError> {
        Self::read_from(|name| env::var_os(name))
    }

    /// Reads variables by a function, which returns the value of a name if it is set. It fails as [`read`](Self::read)
    /// does.
    pub fn read_from(variable: impl Fn(&str) -> Option<OsString>) -> Result<Environment, EnvironmentError> {
        let values = VARIABLES.map(|name| variable(name).map_or(Vec::new(), OsString::into_encoded_bytes));
        let variables = Variables::new(&values);
        let (text, port, capacity, only_ipv6) = destination(&variables).map_err(fault_of)?;
        let target = match port {
            0 if text.is_empty() => Target::Nowhere,
            0 => Target::Unix(text),
            port => Target::Udp(text, port),
        };
        let prefix = environment_prefix(&variables).map_err(fault_of)?;
        let tags = tags_of(&environment_tags(&variables).map_err(fault_of)?);
        let groups = if values[ORIGIN].is_empty() { Vec::new() } else { control_groups() };
        let container = environment_container(&variables, &groups, inode_of(&groups)).map_err(fault_of)?;
        let external = environment_external(&variables).map_err(fault_of)?;
        let [container, external] = [container, external].map(|text| Some(text).filter(|text| !text.is_empty()));
        let number = environment_cardinality(&variables).map_err(fault_of)?;
        let cardinality = CARDINALITIES.into_iter().find(|cardinality| *cardinality as u32 == number);
        Ok(Environment { target, capacity, only_ipv6, prefix, tags, container, external, cardinality })
    }

    /// Returns where to send.
    pub fn target(&self) -> &Target {
        &self.target
    }

    /// Returns how many bytes a packet has.
    pub fn capacity(&self) -> usize {
        self.capacity
    }

    /// Returns whether the host is looked up for addresses of IPv6 alone. It is false if there is no host.
    pub fn only_ipv6(&self) -> bool {
        self.only_ipv6
    }

    /// Returns the prefix, which is empty by default: `environment.client(environment.prefix())` makes a client with it.
    pub fn prefix(&self) -> &str {
        &self.prefix
    }

    /// Returns the default tags, in their order, each with its key if it has one.
    pub fn tags(&self) -> &[(Option<String>, String)] {
        &self.tags
    }

    /// Returns the default container, which is that of the process if a variable says so and the process is in one. The
    /// files `/proc/self/cgroup` and `/proc/self/ns/cgroup` are read then.
    pub fn container(&self) -> Option<&str> {
        self.container.as_deref()
    }

    /// Returns the default external data, which are those of `DD_EXTERNAL_ENV` if `DD_ORIGIN_DETECTION_ENABLED` says so.
    pub fn external(&self) -> Option<&str> {
        self.external.as_deref()
    }

    /// Returns the default cardinality, which says which tags of the container a Datadog agent adds.
    pub fn cardinality(&self) -> Option<Cardinality> {
        self.cardinality
    }

    /// Returns the builder of a client, to which other tags and an error handler can be added. A container, external data or
    /// a cardinality of your own takes the place of that of the environment. The client sends to the target from a socket of
    /// its own, which never blocks, and packs lines into packets of [`capacity`](Self::capacity). If nothing is sent, its
    /// sink is a [`NopMetricSink`](crate::NopMetricSink). The prefix is that of [`StatsdClient::from_sink`].
    ///
    /// Of a name the first address of IPv4 is sent to, or if it has none the first one; with
    /// [`only_ipv6`](Self::only_ipv6) the first address of IPv6. A thread looks the name up again after a minute, and after
    /// a refused packet, but then at most once in a second. If that fails, the address stays.
    ///
    /// It fails with `IoError` if the host can't be looked up, if no socket can be made, if no thread can be started, or if
    /// memory runs out, and with `InvalidInput` if the host has no address, or with `only_ipv6` none of IPv6.
    pub fn builder(&self, prefix: &str) -> MetricResult<StatsdClientBuilder> {
        let builder = match &self.target {
            Target::Udp(host, port) => StatsdClient::builder(prefix, self.udp_sink(host, *port)?),
            Target::Unix(path) => unix_builder(prefix, path, self.capacity)?,
            Target::Nowhere => StatsdClient::builder(prefix, NopMetricSink),
        };
        let builder = self.container.iter().fold(builder, |builder, id| builder.with_container_id(id));
        let builder = self.external.iter().fold(builder, |builder, text| builder.with_external_data(text));
        let builder = self.cardinality.into_iter().fold(builder, StatsdClientBuilder::with_cardinality);
        Ok(self.tags.iter().fold(builder, |builder, (key, text)| match key {
            Some(key) => builder.with_tag(key, text),
            None => builder.with_tag_value(text),
        }))
    }

    /// Makes a client, as [`builder`](Self::builder) does, with the same errors.
    ///
    /// ```no_run
    /// use cadence::prelude::*;
    /// use cadence::Environment;
    ///
    /// let client = Environment::read()?.client("my.service")?;
    /// client.incr("visits")?;
    /// client.flush()?;
    /// # Ok::<(), Box<dyn std::error::Error>>(())
    /// ```
    pub fn client(&self, prefix: &str) -> MetricResult<StatsdClient> {
        Ok(self.builder(prefix)?.build())
    }

    /// Makes a sink over UDP. The name of a host is looked up again and again.
    fn udp_sink(&self, host: &str, port: u16) -> MetricResult<Buffer<HostSink>> {
        let periods = if host.parse::<IpAddr>().is_ok() { None } else { Some(Periods::USUAL) };
        let sink = HostSink::new((host.to_string(), port), self.only_ipv6, periods)?;
        Ok(Buffer::new(sink, self.capacity)?)
    }
}

/// Returns the builder of a client over a Unix socket.
fn unix_builder(prefix: &str, path: &str, capacity: usize) -> MetricResult<StatsdClientBuilder> {
    let socket = UnixDatagram::unbound()?;
    socket.set_nonblocking(true)?;
    Ok(StatsdClient::builder(prefix, BufferedUnixMetricSink::with_capacity(path, socket, capacity)))
}

#[cfg(test)]
#[path = "../tests/unit/container.rs"]
mod tests;
