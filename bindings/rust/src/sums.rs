// SPDX-License-Identifier: MIT OR Apache-2.0
//! The sums of the library, and the lines that they give back.
//!
//! Its `unsafe` code is safe for the reasons of `packer.rs`.
use crate::layout::Handle;
use crate::packer::Packer;
use crate::raw::{checked, FULL, INVALID};
use std::{fmt, io};

/// For how many gauges there is room among the lines that wait.
const MOST_GAUGES: usize = 1 << 16;

unsafe extern "C" {
    fn cadence_open_sums(sums: *mut Handle, contexts: usize, longest: usize, packed: bool) -> u32;
    fn cadence_free_sums(sums: *mut Handle);
    fn cadence_add_line(sums: *mut Handle, handle: *mut Handle, line: *const u8, len: usize) -> u32;
    fn cadence_make_key(sums: *mut Handle, line: *const u8, len: usize, key: *mut usize) -> u32;
    fn cadence_add_number(sums: *mut Handle, handle: *mut Handle, key: usize, number: i64) -> u32;
    fn cadence_flush_sums(sums: *mut Handle, handle: *mut Handle) -> u32;
}

/// Lines that are added up, and those of their lines that wait to be sent. A packet of the packer is one line, because its
/// packets have no room for a line with a newline.
pub(crate) struct Sums {
    sums: Handle,
    lines: Packer,
}

// SAFETY: as that of `Packer`.
unsafe impl Send for Sums {}

impl Sums {
    /// Makes sums that hold at most `contexts` contexts of each kind, and lines of at most `longest` bytes.
    pub(crate) fn new(contexts: usize, longest: usize, packed: bool) -> io::Result<Sums> {
        // A call gives back at most all gauges and its own line. If there are more, they come at the next call.
        let lines = Packer::with_packets(0, contexts.min(MOST_GAUGES) + 2)?;
        let mut sums = Handle::CLOSED;
        // SAFETY: the handle is closed.
        checked(unsafe { cadence_open_sums(&mut sums, contexts, longest, packed) })?;
        Ok(Sums { sums, lines })
    }

    /// Adds a line up. Returns false, without adding it, if lines that wait have to be sent before.
    pub(crate) fn add(&mut self, line: &str) -> io::Result<bool> {
        // SAFETY: both handles are open, because of `&mut self` only one call at a time uses them, and the pointer has the
        // length of its text.
        let status = unsafe { cadence_add_line(&mut self.sums, self.lines.handle(), line.as_ptr(), line.len()) };
        done(status)
    }

    /// Makes the key of a line, and returns its number.
    pub(crate) fn key(&mut self, line: &str) -> io::Result<usize> {
        let mut key = 0;
        // SAFETY: as in `add`.
        let status = unsafe { cadence_make_key(&mut self.sums, line.as_ptr(), line.len(), &mut key) };
        valid(status, "the line raises no counter and sets no gauge").map(|()| key)
    }

    /// Adds a number up by a key. Returns false, without adding it, if lines that wait have to be sent before.
    pub(crate) fn add_number(&mut self, key: usize, number: i64) -> io::Result<bool> {
        // SAFETY: as in `add`.
        let status = unsafe { cadence_add_number(&mut self.sums, self.lines.handle(), key, number) };
        if status == FULL {
            return Ok(false);
        }
        valid(status, "a gauge can't be set to a negative number by a key").map(|()| true)
    }

    /// Lets a line for each context wait. Returns false if lines that wait have to be sent before, and then again.
    pub(crate) fn flush(&mut self) -> io::Result<bool> {
        // SAFETY: as in `add`.
        done(unsafe { cadence_flush_sums(&mut self.sums, self.lines.handle()) })
    }

    /// Returns the first line that waits, if one does.
    pub(crate) fn first(&mut self) -> Option<&[u8]> {
        self.lines.next()
    }

    /// Drops the first line that waits.
    pub(crate) fn drop_first(&mut self) {
        self.lines.drop_oldest();
    }
}

// Returns an error with this text if the status is `INVALID`.
fn valid(status: u32, text: &str) -> io::Result<()> {
    if status == INVALID {
        return Err(io::Error::new(io::ErrorKind::InvalidInput, text));
    }
    checked(status)
}

fn done(status: u32) -> io::Result<bool> {
    if status == FULL {
        return Ok(false);
    }
    checked(status).map(|()| true)
}

impl fmt::Debug for Sums {
    fn fmt(&self, f: &mut fmt::Formatter<'_>) -> fmt::Result {
        f.write_str("Sums { .. }")
    }
}

impl Drop for Sums {
    fn drop(&mut self) {
        // SAFETY: as in `add`; no call uses the handle after this one.
        unsafe { cadence_free_sums(&mut self.sums) }
    }
}
