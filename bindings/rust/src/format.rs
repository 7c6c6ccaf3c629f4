// SPDX-License-Identifier: MIT OR Apache-2.0
//! The calls of the library that write a line.
//!
//! Their `unsafe` code is safe for the reasons of `raw.rs`, and because each call frees all the memory that it gets: while
//! the room of `heap.c` is lent, it gets it from there.
use crate::layout::{Kind, Options, Settings};
use crate::raw::{call_refusal, text_of, INVALID, OK, TOO_SMALL};
use crate::text::{Line, Room, Text};
use crate::types::{ErrorKind, MetricError, MetricResult};
use crate::value::MetricValue;
use std::ffi::c_void;
use std::marker::PhantomData;
use std::slice;

/// Declares the calls that write a line, and their type. `values` points to numbers of the type that the call expects.
macro_rules! formats {
    ($arguments:tt $($name:ident)*) => {
        type Format = unsafe extern "C" fn $arguments -> u32;

        unsafe extern "C" {
            $(fn $name $arguments -> u32;)*
        }
    };
}

formats! {
    (
        settings: *const Settings<'_>, kind: u32, key: *const u8, key_len: usize, values: *const c_void, values_len: usize,
        options: *const Options<'_>, out: *mut u8, room: usize, size: *mut usize,
    )
    cadence_format_signed cadence_format_unsigned cadence_format_floating
}

unsafe extern "C" {
    fn cadence_format_member(
        settings: *const Settings<'_>,
        key: *const u8,
        key_len: usize,
        member: *const u8,
        member_len: usize,
        options: *const Options<'_>,
        out: *mut u8,
        room: usize,
        size: *mut usize,
    ) -> u32;
    fn cadence_c_lend() -> *mut usize;
}

/// Returns the error of a call whose value is a member of a set. Kinds and rates are valid here.
#[cold]
fn member_refusal(status: u32) -> MetricError {
    match status {
        INVALID => (ErrorKind::InvalidInput, "a member of a set is not empty, and has no colon, bar or newline").into(),
        status => call_refusal(status),
    }
}

/// A number that the library reads, and the call for its type.
pub(crate) trait Number {
    const FORMAT: Format;
}

impl Number for i64 {
    const FORMAT: Format = cadence_format_signed;
}

impl Number for u64 {
    const FORMAT: Format = cadence_format_unsigned;
}

impl Number for f64 {
    const FORMAT: Format = cadence_format_floating;
}

/// The numbers of a value as the library reads them: the call for their type, where they are, and how many there are.
#[derive(Clone, Copy)]
pub(crate) struct Numbers<'a> {
    format: Format,
    at: *const c_void,
    len: usize,
    of: PhantomData<&'a MetricValue>,
}

impl<'a> Numbers<'a> {
    #[inline]
    pub(crate) fn of_value(value: &'a MetricValue) -> Self {
        match value {
            MetricValue::Signed(number) => Self::new(slice::from_ref(number)),
            MetricValue::PackedSigned(numbers) => Self::new(numbers),
            MetricValue::Unsigned(number) => Self::new(slice::from_ref(number)),
            MetricValue::PackedUnsigned(numbers) => Self::new(numbers),
            MetricValue::Float(number) => Self::new(slice::from_ref(number)),
            MetricValue::PackedFloat(numbers) => Self::new(numbers),
        }
    }

    #[inline]
    pub(crate) fn new<N: Number>(numbers: &'a [N]) -> Self {
        Numbers { format: N::FORMAT, at: numbers.as_ptr().cast(), len: numbers.len(), of: PhantomData }
    }
}

/// What a line is made of, as the library reads it.
#[derive(Clone, Copy)]
pub(crate) struct Parts<'a> {
    pub(crate) settings: &'a Settings<'a>,
    pub(crate) kind: Kind,
    pub(crate) key: &'a str,
    pub(crate) numbers: Numbers<'a>,
    pub(crate) options: &'a Options<'a>,
}

/// Why a line was not made in a room: the status of the call, and how many bytes the line has if the room was too small.
pub(crate) struct Unmade {
    status: u32,
    size: usize,
}

impl Parts<'_> {
    /// Makes the line in the room.
    #[inline(always)]
    pub(crate) fn line(self, room: &mut Room) -> Result<Line<'_>, Unmade> {
        // SAFETY: as `write` says.
        unsafe { line_in(room, |out, room, size| self.write(out, room, size)) }
    }

    /// Returns the text of the line, which was not made in a room. It fails with `InvalidInput` if the settings are strict and
    /// a text of the call has a separator, or if a float is NaN, infinite or too large.
    pub(crate) fn text_after(self, unmade: Unmade) -> MetricResult<Text> {
        // SAFETY: as `write` says.
        unsafe { long_text(unmade, |out, room, size| self.write(out, room, size)) }.map_err(call_refusal)
    }

    /// Returns the text of the line. It fails as `text_after` does.
    pub(crate) fn text(self) -> MetricResult<Text> {
        self.line(&mut Room::new()).map_or_else(|unmade| self.text_after(unmade), |line| Ok(line.into()))
    }

    /// Lets the library write the line, which consists of texts in UTF-8 and of ASCII characters. The call frees all the
    /// memory that it gets.
    ///
    /// # Safety
    /// So many bytes may be written to the pointer.
    #[inline(always)]
    unsafe fn write(self, out: *mut u8, room: usize, size: &mut usize) -> u32 {
        let Parts { settings, kind, key, numbers: Numbers { format, at, len, .. }, options } = self;
        // SAFETY: each pointer comes with the length of its slice, `format` is the call for the type of the numbers, the call
        // only writes to the room, and it keeps no pointer.
        unsafe { format(settings, kind as u32, key.as_ptr(), key.len(), at, len, options, out, room, size) }
    }
}

/// Returns the text of the line of a member of a set, which is a text. It fails with `InvalidInput` if a line can't have the
/// member, or if the settings are strict and a text of the call has a separator.
pub(crate) fn member_text(settings: &Settings<'_>, key: &str, member: &str, options: &Options<'_>) -> MetricResult<Text> {
    let (key, key_len, at, len) = (key.as_ptr(), key.len(), member.as_ptr(), member.len());
    // SAFETY: as in `Parts::write`; the key and the member come with their lengths.
    let write = |out: *mut u8, room, size: &mut usize| unsafe {
        cadence_format_member(settings, key, key_len, at, len, options, out, room, size)
    };
    // SAFETY: as `Parts::write` says.
    let made = match unsafe { line_in(&mut Room::new(), write) } {
        Ok(line) => Ok(line.into()),
        // SAFETY: as above.
        Err(unmade) => unsafe { long_text(unmade, write) },
    };
    made.map_err(member_refusal)
}

/// Returns the line that a call writes to the room.
///
/// # Safety
/// As for `text_of`, and the call frees all the memory that it gets.
#[inline(always)]
unsafe fn line_in(room: &mut Room, call: impl Fn(*mut u8, usize, &mut usize) -> u32) -> Result<Line<'_>, Unmade> {
    let (bytes, mut size) = (room.bytes(), 0);
    // SAFETY: as the caller promises. The room of `heap.c` is lent until 0 is written to the place that its call returns.
    unsafe {
        let lent = cadence_c_lend();
        let status = call(bytes.as_mut_ptr().cast(), bytes.len(), &mut size);
        lent.write(0);
        match status {
            OK => Ok(Line::new(room, size)),
            status => Err(Unmade { status, size }),
        }
    }
}

/// Returns the text that a call writes to memory of its own, if a room was too small. Otherwise the error is the status.
///
/// # Safety
/// As for `text_of`.
#[cold]
unsafe fn long_text(unmade: Unmade, call: impl Fn(*mut u8, usize, &mut usize) -> u32) -> Result<Text, u32> {
    match unmade.status {
        // SAFETY: as the caller promises.
        TOO_SMALL => unsafe { text_of(unmade.size, call) }.map(Text::from),
        status => Err(status),
    }
}
