// SPDX-License-Identifier: MIT OR Apache-2.0
//! What the variables of the environment say, by the rows of `environment.rows` and `enrichments.rows`, and clients that are
//! made of it.
use cadence::prelude::*;
use cadence::{Cardinality, Environment, EnvironmentError, ErrorKind, Target};
use std::collections::HashMap;
use std::ffi::OsString;
use std::net::UdpSocket;
use std::os::unix::ffi::OsStringExt;
use std::os::unix::net::UnixDatagram;
use std::process::Command;
use std::sync::mpsc;
use std::thread;
use std::time::Duration;

/// Returns the bytes of a value in a row.
fn bytes(text: &str) -> Vec<u8> {
    let mut bytes = Vec::new();
    let mut rest = text;
    while let Some((plain, escape)) = rest.split_once('\\') {
        bytes.extend(plain.bytes());
        let size = if escape.starts_with('n') { 1 } else { 3 };
        bytes.push(if size == 1 { b'\n' } else { u8::from_str_radix(&escape[1..3], 16).unwrap() });
        rest = &escape[size..];
    }
    bytes.extend(rest.bytes());
    bytes
}

/// Reads the variables of a row. Of two values of a variable the last one counts.
fn read(variables: &str) -> Result<Environment, EnvironmentError> {
    let pairs = variables.split(" & ").filter(|pair| !pair.is_empty()).map(|pair| pair.split_once('=').unwrap());
    let set: HashMap<&str, OsString> = pairs.map(|(name, value)| (name, OsString::from_vec(bytes(value)))).collect();
    Environment::read_from(|name| set.get(name).cloned())
}

/// Returns what was read, as a row has it.
fn shown(environment: &Environment) -> Vec<u8> {
    let mut text = match environment.target() {
        Target::Udp(host, port) => format!("udp {host} {port}"),
        Target::Unix(path) => format!("unix {path}"),
        Target::Nowhere => "nowhere".to_string(),
    };
    let usual = if matches!(environment.target(), Target::Udp(..)) { 1432 } else { 8192 };
    if environment.capacity() != usual {
        text += &format!(" {}", environment.capacity());
    }
    if environment.only_ipv6() {
        text += " over IPv6";
    }
    if !environment.prefix().is_empty() {
        text += &format!(" as {}", environment.prefix());
    }
    for (key, value) in environment.tags() {
        text += " | ";
        text += &key.as_ref().map_or(value.clone(), |key| format!("{key}={value}"));
    }
    text.into_bytes()
}

/// Returns the external data and the cardinality that variables say, as a row has them.
fn enrichment(variables: &str) -> Result<Vec<u8>, EnvironmentError> {
    let (said, wanted) = (read(variables)?, read(&format!("{variables} & DD_ORIGIN_DETECTION_ENABLED=1"))?);
    let cardinality = said.cardinality().map(|cardinality| match cardinality {
        Cardinality::NoTags => "none",
        Cardinality::Low => "low",
        Cardinality::Orchestrator => "orchestrator",
        Cardinality::High => "high",
    });
    let words = [said.external(), wanted.external(), cardinality];
    Ok(words.map(|word| word.unwrap_or("-")).join(" | ").into_bytes())
}

/// Tests what variables say by the rows of a file, which are at least so many. An archive has the file beside this crate, the
/// repository where its own test reads it.
fn test_rows(name: &str, least: usize, said: fn(&str) -> Result<Vec<u8>, EnvironmentError>) {
    let folder = env!("CARGO_MANIFEST_DIR");
    let rows = ["..", "../../crates/test_calls/data"]
        .iter()
        .find_map(|place| std::fs::read_to_string(format!("{folder}/{place}/{name}")).ok())
        .unwrap();
    let mut seen = 0;
    for row in rows.lines().filter(|row| !row.is_empty() && !row.starts_with('#')) {
        let (wanted, variables) = row.split_once(" <- ").unwrap_or((row, ""));
        match (said(variables), wanted.strip_prefix("refuses ")) {
            (Ok(said), None) => assert_eq!(bytes(wanted), said, "{row}"),
            (Err(error), Some(variable)) => {
                assert_eq!(variable, error.variable(), "{row}");
                assert!(error.to_string().starts_with(&format!("{variable} wants ")), "{row}: {error}");
            }
            (found, _) => panic!("{row}: {found:?}"),
        }
        seen += 1;
    }
    assert!(seen >= least, "{seen}");
}

#[test]
fn each_row_is_read() {
    test_rows("environment.rows", 400, |variables| read(variables).map(|environment| shown(&environment)));
    test_rows("enrichments.rows", 70, enrichment);
}

#[test]
fn an_error_says_what_its_variable_wants() {
    for (variables, text) in [
        ("STATSD_PORT=0", "STATSD_PORT wants a port, as in STATSD_PORT=8125"),
        ("DD_TAGS=:v", "DD_TAGS wants tags K:V or V, no bars or newlines, as in DD_TAGS=a:b,c"),
        ("DD_ENV=\\xff", "DD_ENV wants no commas, bars or newlines, as in DD_ENV=prod"),
    ] {
        assert_eq!(text, read(variables).unwrap_err().to_string());
    }
}

/// Returns the next packet of a server.
macro_rules! packet {
    ($server:expr) => {{
        let mut packet = [0; 8192];
        $server.set_read_timeout(Some(Duration::from_secs(60))).unwrap();
        let size = $server.recv(&mut packet).unwrap();
        String::from_utf8(packet[..size].to_vec()).unwrap()
    }};
}

#[test]
fn a_client_packs_its_lines_and_has_the_tags() {
    let server = UdpSocket::bind("127.0.0.1:0").unwrap();
    let port = server.local_addr().unwrap().port();
    let client = read(&format!("STATSD_PORT={port} & DD_ENV=prod & DD_TAGS=beta")).unwrap().client("p").unwrap();
    client.incr("a").unwrap();
    client.incr_with_tags("b").with_tag("k", "v").send();
    client.flush().unwrap();
    assert_eq!("p.a:1|c|#env:prod,beta\np.b:1|c|#env:prod,beta,k:v\n", packet!(server));
}

#[test]
fn a_client_that_is_off_sends_nothing() {
    let server = UdpSocket::bind("127.0.0.1:0").unwrap();
    server.set_nonblocking(true).unwrap();
    let port = server.local_addr().unwrap().port();
    let environment = read(&format!("STATSD_PORT={port} & DD_DOGSTATSD_DISABLE=true")).unwrap();
    assert_eq!(&Target::Nowhere, environment.target());
    let client = environment.client("p").unwrap();
    client.incr("a").unwrap();
    client.flush().unwrap();
    drop(client);
    assert_eq!(std::io::ErrorKind::WouldBlock, server.recv(&mut [0; 8]).unwrap_err().kind());
}

#[test]
fn a_packet_has_1432_bytes_over_udp() {
    let server = UdpSocket::bind("127.0.0.1:0").unwrap();
    let port = server.local_addr().unwrap().port();
    let client = read(&format!("STATSD_PORT={port}")).unwrap().client("").unwrap();
    for _ in 0..180 {
        client.incr("abc").unwrap();
    }
    assert_eq!("abc:1|c\n".repeat(179), packet!(server));
    client.flush().unwrap();
    assert_eq!("abc:1|c\n", packet!(server));
}

#[test]
fn a_builder_takes_more_tags_after_those_of_the_environment() {
    let server = UdpSocket::bind("127.0.0.1:0").unwrap();
    let port = server.local_addr().unwrap().port();
    let environment = read(&format!("DD_DOGSTATSD_URL=udp://localhost:{port} & DD_ENV=prod")).unwrap();
    let client = environment.builder("").unwrap().with_tag("k", "v").with_strict_texts().build();
    client.incr("a").unwrap();
    assert_eq!(ErrorKind::InvalidInput, client.incr("a|b").unwrap_err().kind());
    drop(client);
    assert_eq!("a:1|c|#env:prod,k:v\n", packet!(server));
}

#[test]
fn a_client_has_the_external_data_and_the_cardinality_unless_the_caller_gives_others() {
    let server = UdpSocket::bind("127.0.0.1:0").unwrap();
    let port = server.local_addr().unwrap().port();
    let variables = format!("STATSD_PORT={port} & DD_EXTERNAL_ENV=cn-|web\\n & DATADOG_CARDINALITY=low");
    let environment = read(&format!("{variables} & DD_ORIGIN_DETECTION_ENABLED=yes")).unwrap();
    let builder = || environment.builder("p").unwrap().with_container_id("id");
    for (client, line) in [
        (read(&variables).unwrap().client("p").unwrap(), "p.a:1|c|card:low\n"),
        (builder().build(), "p.a:1|c|c:id|e:cn-web|card:low\n"),
        (builder().with_external_data("own").build(), "p.a:1|c|c:id|e:own|card:low\n"),
        (builder().with_cardinality(Cardinality::High).build(), "p.a:1|c|c:id|e:cn-web|card:high\n"),
    ] {
        client.incr("a").unwrap();
        client.flush().unwrap();
        assert_eq!(line, packet!(server));
    }
}

#[test]
fn a_client_sends_to_an_address_of_ipv6() {
    let Ok(server) = UdpSocket::bind("[::1]:0") else { return };
    let port = server.local_addr().unwrap().port();
    let client = read(&format!("DD_AGENT_HOST=[::1] & DD_DOGSTATSD_PORT={port}")).unwrap().client("p").unwrap();
    client.incr("a").unwrap();
    client.flush().unwrap();
    assert_eq!("p.a:1|c\n", packet!(server));
}

#[test]
fn a_client_of_ipv6_alone_refuses_an_address_of_ipv4() {
    let environment = read("STATSD_HOST=127.0.0.1 & STATSD_IPV6=1").unwrap();
    assert_eq!(ErrorKind::InvalidInput, environment.client("p").unwrap_err().kind());
    let Ok(server) = UdpSocket::bind("[::1]:0") else { return };
    let port = server.local_addr().unwrap().port();
    let client = read(&format!("STATSD_HOST=::1 & STATSD_PORT={port} & STATSD_IPV6=1")).unwrap().client("p").unwrap();
    client.incr("a").unwrap();
    client.flush().unwrap();
    assert_eq!("p.a:1|c\n", packet!(server));
}

#[test]
fn a_client_sends_to_a_unix_socket_and_never_waits_for_it() {
    let path = std::env::temp_dir().join(format!("cadence-environment-{}", std::process::id()));
    let server = UnixDatagram::bind(&path).unwrap();
    let client = read(&format!("DD_DOGSTATSD_URL=unix://{}", path.display())).unwrap().client("p").unwrap();
    client.incr("a").unwrap();
    client.flush().unwrap();
    assert_eq!("p.a:1|c\n", packet!(server));
    // a packet holds 8192 bytes, which are 1024 of these lines
    (0..1024).for_each(|_| drop(client.incr("a").unwrap()));
    client.flush().unwrap();
    assert_eq!("p.a:1|c\n".repeat(1024), packet!(server));
    // nobody receives, so the queue of the socket becomes full, and then a flush fails
    let (told, heard) = mpsc::channel();
    thread::spawn(move || told.send((0..1_000_000).find_map(|_| client.incr("a").and_then(|_| client.flush()).err())));
    assert_eq!(Some(ErrorKind::IoError), heard.recv_timeout(Duration::from_secs(60)).unwrap().map(|error| error.kind()));
    std::fs::remove_file(&path).unwrap();
}

#[test]
fn a_host_that_has_no_address_is_an_error() {
    let environment = read("DD_AGENT_HOST=no.such.host.invalid").unwrap();
    assert_eq!(ErrorKind::IoError, environment.client("p").unwrap_err().kind());
}

/// The test below runs this test in a process of its own, whose variables it sets.
#[test]
fn in_a_process_with_variables() {
    if std::env::var_os("CADENCE_TEST_OF_VARIABLES").is_some() {
        let environment = Environment::read().unwrap();
        assert_eq!("udp agent 9125 | env=prod", String::from_utf8(shown(&environment)).unwrap());
    }
}

#[test]
fn the_variables_of_the_process_are_read() {
    let run = |env: &str| {
        let mut command = Command::new(std::env::current_exe().unwrap());
        command.args(["--exact", "in_a_process_with_variables"]).env_clear().env("CADENCE_TEST_OF_VARIABLES", "1");
        command.env("DD_DOGSTATSD_URL", "udp://agent:9125").env("DD_ENV", env).output().unwrap().status.success()
    };
    assert!(run("prod"));
    assert!(!run("dev"));
}
