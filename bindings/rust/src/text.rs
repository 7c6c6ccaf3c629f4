// SPDX-License-Identifier: MIT OR Apache-2.0
//! The room in which a line is written, and the text of a metric, which needs no memory of its own if it is short.
//!
//! The `unsafe` code is safe because the first bytes of a room are written before a line or a text is made of them.
use std::hash::{Hash, Hasher};
use std::mem::MaybeUninit;
use std::{fmt, slice, str};

/// How many bytes a text has at most that needs no memory of its own. With them a metric has 128 bytes.
const SHORT: usize = 126;

/// How many bytes a line has at most that fits into a room.
const ROOM: usize = 512;

/// Memory of a caller, in which the library writes a line.
pub(crate) struct Room([MaybeUninit<u8>; ROOM]);

impl Room {
    #[inline]
    pub(crate) fn new() -> Room {
        Room([MaybeUninit::uninit(); ROOM])
    }

    /// Returns the bytes that the library writes.
    #[inline]
    pub(crate) fn bytes(&mut self) -> &mut [MaybeUninit<u8>] {
        &mut self.0
    }
}

/// A line in a room: its first bytes.
#[derive(Clone, Copy)]
pub(crate) struct Line<'a> {
    room: &'a Room,
    len: usize,
}

impl<'a> Line<'a> {
    /// Makes a line of the first `len` bytes of a room.
    ///
    /// # Safety
    /// These bytes were written, and they are UTF-8.
    #[inline]
    pub(crate) unsafe fn new(room: &'a Room, len: usize) -> Line<'a> {
        Line { room, len }
    }

    #[inline]
    pub(crate) fn as_str(&self) -> &'a str {
        // SAFETY: as the caller of `new` promises.
        unsafe { text_at(&self.room.0, self.len) }
    }

    /// Returns the text of the line if it is a short one.
    #[inline(always)]
    pub(crate) fn short_text(&self) -> Option<Text> {
        match self.room.0.first_chunk() {
            // All bytes are copied, because that takes fewer instructions than to copy some.
            Some(bytes) if self.len <= SHORT => Some(Text(Repr::Short { len: self.len as u8, bytes: *bytes })),
            _ => None,
        }
    }
}

/// The text of a metric, which never changes.
#[derive(Clone)]
pub(crate) struct Text(Repr);

#[derive(Clone)]
enum Repr {
    /// The first `len` bytes are the text.
    Short {
        len: u8,
        bytes: [MaybeUninit<u8>; SHORT],
    },
    Long(String),
}

impl Text {
    #[inline]
    pub(crate) fn as_str(&self) -> &str {
        match &self.0 {
            // SAFETY: they are the first bytes of the room of a line.
            Repr::Short { len, bytes } => unsafe { text_at(bytes, (*len).into()) },
            Repr::Long(text) => text,
        }
    }
}

impl From<Line<'_>> for Text {
    fn from(line: Line<'_>) -> Text {
        line.short_text().unwrap_or_else(|| Self::from(line.as_str().to_string()))
    }
}

impl From<String> for Text {
    #[inline]
    fn from(text: String) -> Text {
        Text(Repr::Long(text))
    }
}

/// Returns the text of the first `len` bytes.
///
/// # Safety
/// These bytes were written, and they are UTF-8.
#[inline]
unsafe fn text_at(bytes: &[MaybeUninit<u8>], len: usize) -> &str {
    // SAFETY: as the caller promises.
    unsafe { str::from_utf8_unchecked(slice::from_raw_parts(bytes.as_ptr().cast(), len)) }
}

impl PartialEq for Text {
    fn eq(&self, other: &Text) -> bool {
        self.as_str() == other.as_str()
    }
}

impl Eq for Text {}

impl Hash for Text {
    fn hash<H: Hasher>(&self, state: &mut H) {
        self.as_str().hash(state);
    }
}

impl fmt::Debug for Text {
    fn fmt(&self, f: &mut fmt::Formatter<'_>) -> fmt::Result {
        self.as_str().fmt(f)
    }
}
