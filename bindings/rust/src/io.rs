// SPDX-License-Identifier: MIT OR Apache-2.0
//! A buffer of lines over any writer.
use std::io::{self, BufWriter, Write, WriterPanicked};

/// Buffers lines, and writes several of them at once to another writer. It is for sinks of your own.
///
/// Each `write` is a line, which is buffered with the ending after it. If the line doesn't fit beside the buffered
/// text, that text is written first. If the line is longer than the capacity with its ending, it is written alone,
/// without the ending. `flush` writes the buffered text, and so does the drop. Text that the writer refuses stays in
/// the buffer.
///
/// This type is plain Rust, because the proved packer, which the sinks of this crate use, always ends a line with a
/// newline.
///
/// ```
/// use std::io::Write;
/// use cadence::ext::MultiLineWriter;
///
/// let mut lines = MultiLineWriter::new(Vec::new(), 512);
/// lines.write_all(b"visits:1|c").unwrap();
/// lines.write_all(b"load:2|g").unwrap();
/// lines.flush().unwrap();
/// assert_eq!(b"visits:1|c\nload:2|g\n", lines.get_ref().as_slice());
/// ```
#[derive(Debug)]
pub struct MultiLineWriter<T: Write> {
    inner: BufWriter<T>,
    capacity: usize,
    ending: Vec<u8>,
}

// The buffer has room for more bytes than it gets, because a `BufWriter` writes a text that fills it at once.
fn buffer<T: Write>(inner: T, capacity: usize) -> BufWriter<T> {
    BufWriter::with_capacity(capacity.saturating_add(1), inner)
}

impl<T: Write> MultiLineWriter<T> {
    /// Makes a buffer with a capacity of `cap` bytes, whose lines end with a newline.
    pub fn new(inner: T, cap: usize) -> MultiLineWriter<T> {
        Self::with_ending(inner, cap, "\n")
    }

    /// Makes a buffer with a capacity of `cap` bytes, whose lines have this ending.
    pub fn with_ending(inner: T, cap: usize, end: &str) -> MultiLineWriter<T> {
        MultiLineWriter { inner: buffer(inner, cap), capacity: cap, ending: end.as_bytes().to_vec() }
    }

    /// Returns the writer.
    pub fn get_ref(&self) -> &T {
        self.inner.get_ref()
    }

    /// Returns the writer. A text that is written to it directly comes before the buffered text.
    pub fn get_mut(&mut self) -> &mut T {
        self.inner.get_mut()
    }

    /// Replaces the writer, and returns the old one with the bytes that were buffered for it. If the old writer
    /// panicked, these bytes are in the error. The buffer is empty afterwards.
    pub fn replace_writer(&mut self, writer: T) -> (T, Result<Vec<u8>, WriterPanicked>) {
        std::mem::replace(&mut self.inner, buffer(writer, self.capacity)).into_parts()
    }
}

impl<T: Write> Write for MultiLineWriter<T> {
    fn write(&mut self, line: &[u8]) -> io::Result<usize> {
        let (held, needed) = (self.inner.buffer().len(), line.len() + self.ending.len());
        if held > 0 && needed > self.capacity - held {
            self.flush()?;
        }
        if needed > self.capacity {
            return self.inner.get_mut().write(line);
        }
        self.inner.write_all(line)?;
        self.inner.write_all(&self.ending)?;
        Ok(line.len())
    }

    fn flush(&mut self) -> io::Result<()> {
        self.inner.flush()
    }
}
