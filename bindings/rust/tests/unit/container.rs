// SPDX-License-Identifier: MIT OR Apache-2.0
//! The container of the process, by the rows of `containers.rows`.
use super::{control_groups, environment_container, inode_of, Environment, Variables, ORIGIN, VARIABLES};

/// Returns the bytes of a text in a row.
fn bytes(text: &str) -> Vec<u8> {
    let mut pieces = text.split('\\');
    let mut bytes = pieces.next().unwrap_or("").as_bytes().to_vec();
    for piece in pieces {
        let size = if piece.starts_with('n') { 1 } else { 3 };
        bytes.push(if size == 1 { b'\n' } else { u8::from_str_radix(&piece[1..3], 16).unwrap() });
        bytes.extend(piece[size..].bytes());
    }
    bytes
}

/// Returns the default container if the switch has this text, for a process with these control groups.
fn container(switch: &str, groups: &[u8], inode: u64) -> Result<String, u32> {
    let mut values = VARIABLES.map(|_| Vec::new());
    values[ORIGIN] = switch.as_bytes().to_vec();
    environment_container(&Variables::new(&values), groups, inode)
}

/// Returns the rows. An archive has their file beside this crate, the repository where its own test reads it.
fn rows() -> String {
    let folder = env!("CARGO_MANIFEST_DIR");
    ["../containers.rows", "../../crates/test_calls/data/containers.rows"]
        .iter()
        .find_map(|place| std::fs::read_to_string(format!("{folder}/{place}")).ok())
        .unwrap()
}

#[test]
fn each_row_is_read() {
    let rows = rows();
    let mut seen = 0;
    for row in rows.lines().filter(|row| !row.is_empty() && !row.starts_with('#')) {
        let (wanted, given) = row.split_once(" <- ").unwrap();
        let (inode, text) = given.split_once(' ').unwrap();
        let (groups, inode) = (bytes(text), inode.parse().unwrap());
        assert_eq!(Ok(if wanted == "none" { "" } else { wanted }.to_string()), container("yes", &groups, inode), "{row}");
        for off in ["", "0", "false", "False", "no"] {
            assert_eq!(Ok(String::new()), container(off, &groups, inode), "{row}");
        }
        seen += 1;
    }
    assert!(seen >= 45, "{seen}");
    assert_eq!(Err(15), container("on", b"", 1));
}

#[test]
fn an_environment_has_the_container_of_the_process() {
    let read = |switch: &str| Environment::read_from(|name| (name == "DD_ORIGIN_DETECTION_ENABLED").then(|| switch.into()));
    let groups = control_groups();
    let wanted = container("1", &groups, inode_of(&groups)).unwrap();
    assert_eq!(wanted, read("true").unwrap().container().unwrap_or_default());
    assert_eq!(None, read("0").unwrap().container());
    assert_eq!("DD_ORIGIN_DETECTION_ENABLED", read("on").unwrap_err().variable());
}
