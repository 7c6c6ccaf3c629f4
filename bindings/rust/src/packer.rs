// SPDX-License-Identifier: MIT OR Apache-2.0
//! The packer of the library, which needs one call at a time.
//!
//! Its `unsafe` code is safe for the reasons of `raw.rs`, and because each call that uses a handle takes `&mut self`.
use crate::layout::{CheckData, EventData, Handle, Settings};
use crate::raw::{call_refusal, checked, OK, TOO_SMALL};
use crate::types::MetricResult;
use std::{fmt, io};

/// What the library does if a packet is made and as many wait as may: it refuses the call.
const REFUSE: u32 = 0;

unsafe extern "C" {
    fn cadence_open(handle: *mut Handle, capacity: usize, packets: usize, policy: u32) -> u32;
    fn cadence_free(handle: *mut Handle);
    fn cadence_line(handle: *mut Handle, line: *const u8, len: usize) -> u32;
    fn cadence_event(handle: *mut Handle, settings: *const Settings<'_>, event: *const EventData<'_>) -> u32;
    fn cadence_service_check(handle: *mut Handle, settings: *const Settings<'_>, check: *const CheckData<'_>) -> u32;
    fn cadence_held(handle: *mut Handle, buf: *mut u8, room: usize, size: *mut usize) -> u32;
    fn cadence_drop_held(handle: *mut Handle) -> u32;
    fn cadence_next(handle: *mut Handle, buf: *mut u8, room: usize, size: *mut usize) -> u32;
    fn cadence_sent(handle: *mut Handle) -> u32;
}

/// The packer, with the text that it has buffered and the packets that wait.
pub(crate) struct Packer {
    handle: Handle,
    /// How many bytes of the lines of `keep` are held, with their newlines.
    held: usize,
    packet: Vec<u8>,
}

// SAFETY: the library stores nothing that belongs to a thread, and each call that changes a packer takes `&mut self`.
unsafe impl Send for Packer {}

impl Packer {
    /// Makes a packer whose packets have at most `capacity` bytes, and in which at most `packets` packets wait, at least 2.
    pub(crate) fn with_packets(capacity: usize, packets: usize) -> io::Result<Packer> {
        let mut handle = Handle::CLOSED;
        // SAFETY: the handle is closed.
        checked(unsafe { cadence_open(&mut handle, capacity, packets, REFUSE) })?;
        Ok(Packer { handle, held: 0, packet: Vec::new() })
    }

    /// Returns the handle, which is open and stays so.
    pub(crate) fn handle(&mut self) -> &mut Handle {
        &mut self.handle
    }

    /// Returns how many bytes of the lines of `keep` are held for the next packet, with their newlines.
    #[inline]
    pub(crate) fn held_len(&self) -> usize {
        self.held
    }

    /// Adds a line to the held text, beside which it fits with its newline. After an error the packer is as it was.
    #[inline]
    pub(crate) fn keep(&mut self, line: &str) -> io::Result<()> {
        // SAFETY: the handle is open, because of `&mut self` only one call at a time uses it, and the pointer has the length
        // of its slice.
        checked(unsafe { cadence_line(&mut self.handle, line.as_ptr(), line.len()) })?;
        self.held += line.len() + 1;
        Ok(())
    }

    /// Returns the held text, which stays held.
    pub(crate) fn held(&mut self) -> &str {
        // SAFETY: as in `keep`.
        let held = self.copied(|handle, at, room, size| unsafe { cadence_held(handle, at, room, size) });
        // SAFETY: it consists of lines, each of which was a `&str`, and newlines.
        unsafe { std::str::from_utf8_unchecked(held.unwrap_or_default()) }
    }

    /// Drops the held text, after it was sent. After an error it is still held.
    pub(crate) fn drop_held(&mut self) -> io::Result<()> {
        // SAFETY: as in `keep`.
        checked(unsafe { cadence_drop_held(&mut self.handle) })?;
        self.held = 0;
        Ok(())
    }

    /// Returns the packet that waits, if one does. The packet still waits afterwards.
    pub(crate) fn next(&mut self) -> Option<&[u8]> {
        // SAFETY: as in `keep`.
        self.copied(|handle, at, room, size| unsafe { cadence_next(handle, at, room, size) })
    }

    /// Returns the text that a call of the library copies to the buffer, if there is one.
    fn copied(&mut self, copy: impl Fn(&mut Handle, *mut u8, usize, &mut usize) -> u32) -> Option<&[u8]> {
        let mut size = 0;
        loop {
            match copy(&mut self.handle, self.packet.as_mut_ptr(), self.packet.len(), &mut size) {
                OK => return self.packet.get(..size),
                TOO_SMALL => self.packet.resize(size, 0),
                _ => return None,
            }
        }
    }

    /// Drops the packet that waits, if there is one.
    pub(crate) fn drop_oldest(&mut self) {
        // SAFETY: as in `keep`.
        unsafe { cadence_sent(&mut self.handle) };
    }
}

/// What the library makes a line of and keeps it.
pub(crate) trait Kept {
    /// Keeps the line in a handle, and returns the status.
    fn keep(&self, handle: &mut Handle, settings: &Settings<'_>) -> u32;
}

impl Kept for EventData<'_> {
    fn keep(&self, handle: &mut Handle, settings: &Settings<'_>) -> u32 {
        // SAFETY: the handle is open and borrowed by this call alone, and each pointer in a struct comes with the length of
        // its slice.
        unsafe { cadence_event(handle, settings, self) }
    }
}

impl Kept for CheckData<'_> {
    fn keep(&self, handle: &mut Handle, settings: &Settings<'_>) -> u32 {
        // SAFETY: as above.
        unsafe { cadence_service_check(handle, settings, self) }
    }
}

/// Returns the line of an event or a service check. It fails with `InvalidInput` if a text can't stand in the line.
pub(crate) fn line_kept_by(settings: &Settings<'_>, kept: &impl Kept) -> MetricResult<String> {
    // a packer whose packets have no room makes a packet of the line alone, without a newline
    let mut packer = Packer::with_packets(0, 2)?;
    match kept.keep(&mut packer.handle, settings) {
        // SAFETY: the line consists of texts, each of which was a `&str`, and ASCII characters.
        OK => Ok(unsafe { std::str::from_utf8_unchecked(packer.next().unwrap_or_default()) }.to_string()),
        status => Err(call_refusal(status)),
    }
}

impl fmt::Debug for Packer {
    fn fmt(&self, f: &mut fmt::Formatter<'_>) -> fmt::Result {
        f.write_str("Packer { .. }")
    }
}

impl Drop for Packer {
    fn drop(&mut self) {
        // SAFETY: as in `keep`; no call uses the handle after this one.
        unsafe { cadence_free(&mut self.handle) }
    }
}
