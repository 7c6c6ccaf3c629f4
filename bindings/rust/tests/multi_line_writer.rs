// SPDX-License-Identifier: MIT OR Apache-2.0
//! The buffer of lines over any writer.
use cadence::ext::MultiLineWriter;
use std::io::{self, Write};
use std::panic::{catch_unwind, AssertUnwindSafe};

/// A writer that stores each write. It refuses a write, or panics, if the test says so.
#[derive(Debug, Default)]
struct Writes {
    writes: Vec<String>,
    refuses: bool,
    panics: bool,
}

impl Write for Writes {
    fn write(&mut self, bytes: &[u8]) -> io::Result<usize> {
        assert!(!self.panics, "this writer is meant to panic");
        if self.refuses {
            return Err(io::Error::other("refused"));
        }
        self.writes.push(String::from_utf8(bytes.to_vec()).unwrap());
        Ok(bytes.len())
    }

    fn flush(&mut self) -> io::Result<()> {
        Ok(())
    }
}

#[test]
fn lines_are_gathered_and_over_long_ones_go_alone() {
    let cases: [(usize, &str, &[&str], &[&str]); 9] = [
        (16, "\n", &["foo:1234|c", "baz:5678|c"], &["foo:1234|c\n", "baz:5678|c\n"]),
        (32, "\n", &["abc:3|g", "def:4|g"], &["abc:3|g\ndef:4|g\n"]),
        (16, "\n", &["some_really_long_metric:456|c", "abc:4|g"], &["some_really_long_metric:456|c", "abc:4|g\n"]),
        (8, "\n", &["foo:42|c"], &["foo:42|c"]),
        (9, "\n", &["foo:42|c"], &["foo:42|c\n"]),
        (20, "\n", &["small:1|c", "this_is_longer_than_20_bytes"], &["small:1|c\n", "this_is_longer_than_20_bytes"]),
        (8, "\r\n", &["ab", "cd", "e"], &["ab\r\ncd\r\n", "e\r\n"]),
        (4, "", &["ab", "cd", "abcd", "e"], &["abcd", "abcd", "e"]),
        (0, "\n", &["a", "b"], &["a", "b"]),
    ];
    for (capacity, ending, lines, wanted) in cases {
        let mut writer = MultiLineWriter::with_ending(Writes::default(), capacity, ending);
        for line in lines {
            assert_eq!(line.len(), writer.write(line.as_bytes()).unwrap());
        }
        writer.flush().unwrap();
        assert_eq!(wanted, writer.get_ref().writes, "{capacity} {ending:?}");
    }
}

#[test]
fn a_drop_writes_what_is_held() {
    let mut bytes = Vec::new();
    let mut writer = MultiLineWriter::new(&mut bytes, 32);
    writer.write_all(b"something").unwrap();
    assert!(writer.get_ref().is_empty());
    drop(writer);
    assert_eq!(b"something\n", bytes.as_slice());
}

#[test]
fn what_is_refused_stays_held() {
    let mut writer = MultiLineWriter::new(Writes { refuses: true, ..Writes::default() }, 16);
    writer.write_all(b"first:1|c").unwrap();
    assert!(writer.flush().is_err());
    assert!(writer.write(b"second:1|c").is_err());
    assert_eq!(5, writer.write(b"3:1|c").unwrap());
    writer.get_mut().refuses = false;
    writer.flush().unwrap();
    assert_eq!(["first:1|c\n3:1|c\n"], writer.get_ref().writes.as_slice());
}

#[test]
fn a_writer_is_replaced_with_what_was_held_for_it() {
    let mut writer = MultiLineWriter::new(Vec::new(), 32);
    writer.write_all(b"first").unwrap();
    writer.flush().unwrap();
    writer.write_all(b"second").unwrap();
    let (old, held) = writer.replace_writer(Vec::new());
    assert_eq!((b"first\n".to_vec(), b"second\n".to_vec()), (old, held.unwrap()));
    writer.write_all(b"third").unwrap();
    writer.flush().unwrap();
    assert_eq!(b"third\n", writer.get_ref().as_slice());
}

#[test]
fn a_writer_that_panicked_is_replaced_too() {
    let mut writer = MultiLineWriter::new(Writes { panics: true, ..Writes::default() }, 32);
    writer.write_all(b"first").unwrap();
    assert!(catch_unwind(AssertUnwindSafe(|| writer.flush())).is_err());
    let (_, held) = writer.replace_writer(Writes::default());
    assert_eq!(b"first\n".to_vec(), held.unwrap_err().into_inner());
    writer.write_all(b"second").unwrap();
    writer.flush().unwrap();
    assert_eq!(["second\n"], writer.get_ref().writes.as_slice());
}
