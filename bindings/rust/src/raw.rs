// SPDX-License-Identifier: MIT OR Apache-2.0
//! The library, called as C, and safe calls of it. The only `unsafe` code of the crate is here, and in `format.rs`, `packer.rs`,
//! `sums.rs` and `text.rs`.
//!
//! Each block is safe if the declarations fit `cadence.h` (a test compares the layouts), and if each pointer
//! comes with the length of the memory that it points to.
use crate::layout::{Decimal, Separators, Settings, Tag, Variables};
use crate::types::{ErrorKind, MetricError, MetricResult};
use std::alloc::{handle_alloc_error, Layout};
use std::marker::PhantomData;
use std::mem::{self, MaybeUninit};
use std::{io, slice};

/// A slice as C has it: a pointer, and how many values it points to.
#[repr(C)]
#[derive(Clone, Copy)]
pub(crate) struct Slice<'a, T> {
    pub(crate) at: *const T,
    pub(crate) len: usize,
    of: PhantomData<&'a [T]>,
}

// SAFETY: it is a `&[T]` in another layout.
unsafe impl<T: Sync> Send for Slice<'_, T> {}
// SAFETY: as above.
unsafe impl<T: Sync> Sync for Slice<'_, T> {}

impl<'a, T> Slice<'a, T> {
    #[inline]
    pub(crate) const fn new(values: &'a [T]) -> Self {
        Slice { at: values.as_ptr(), len: values.len(), of: PhantomData }
    }

    pub(crate) fn get(&self) -> &'a [T] {
        // SAFETY: both are those of the slice that it was made of.
        unsafe { slice::from_raw_parts(self.at, self.len) }
    }
}

/// Settings with their texts, so that they are made once and lent to each call.
pub(crate) struct OwnedSettings {
    // `lent` points to these texts, which are never changed. A `String` may move, because its bytes don't move with it.
    texts: [String; 4],
    lent: Settings<'static>,
}

/// What a Datadog agent uses to add tags to the metrics of a client.
#[derive(Clone, Default)]
pub(crate) struct Enrichment {
    /// The external data, or an empty text for none.
    pub(crate) external: String,
    /// The number of the cardinality, or 0 for none.
    pub(crate) cardinality: u32,
}

impl OwnedSettings {
    /// Makes settings of a prefix, default tags, a default container, what a Datadog agent uses, and what becomes of a
    /// separator in a text. The error is a status, which is `SEPARATOR` if the external data have a bar or a newline, or if
    /// separators are refused and a text of these has one.
    pub(crate) fn new(
        prefix: &str,
        tags: &[Tag<'_>],
        container: Option<&str>,
        enrichment: &Enrichment,
        separators: Separators,
    ) -> Result<Self, u32> {
        if enrichment.external.contains(['|', '\n']) {
            return Err(SEPARATOR);
        }
        let text = container.unwrap_or_default();
        let (strict, cleaned) = separators.words();
        // SAFETY: each pointer comes with the length of its slice. The first text is a part of the prefix and a dot, the
        // second one consists of texts in UTF-8 and of ASCII characters, and the other ones are in UTF-8. In a cleaned text
        // some ASCII characters are underscores.
        let texts = unsafe {
            if strict && cadence_test_text(text.as_ptr(), text.len()) != OK {
                return Err(SEPARATOR);
            }
            [
                text_of(0, |out, room, size| {
                    cadence_prefix_text(prefix.as_ptr(), prefix.len(), strict, cleaned, out, room, size)
                })?,
                text_of(0, |out, room, size| cadence_tags_text(tags.as_ptr(), tags.len(), strict, cleaned, out, room, size))?,
                if cleaned {
                    text_of(0, |out, room, size| cadence_cleaned_text(text.as_ptr(), text.len(), out, room, size))?
                } else {
                    text.to_string()
                },
                enrichment.external.clone(),
            ]
        };
        Ok(Self::of(texts, container.is_some(), enrichment.cardinality, separators))
    }

    fn of(texts: [String; 4], contained: bool, cardinality: u32, separators: Separators) -> OwnedSettings {
        let [prefix, tags, container, external] = texts.each_ref().map(String::as_str);
        let mut lent = Settings::new(prefix, tags, contained.then_some(container), separators);
        lent.set_enrichment(external, cardinality);
        // SAFETY: `lend` returns it only for as long as the texts are there.
        let lent = unsafe { mem::transmute::<Settings<'_>, Settings<'static>>(lent) };
        OwnedSettings { texts, lent }
    }

    /// Returns the settings as the library reads them.
    #[inline]
    pub(crate) fn lend(&self) -> &Settings<'_> {
        &self.lent
    }

    /// Returns the text that each name begins with.
    pub(crate) fn prefix(&self) -> &str {
        &self.texts[0]
    }
}

impl Default for OwnedSettings {
    fn default() -> Self {
        Self::of(Default::default(), false, 0, Separators::Kept)
    }
}

pub(crate) const OK: u32 = 0;
const NO_MEMORY: u32 = 2;
pub(crate) const FULL: u32 = 3;
pub(crate) const INVALID: u32 = 4;
pub(crate) const TOO_SMALL: u32 = 7;
const SEPARATOR: u32 = 8;
const VARIABLE: u32 = 9;
const UNFIT: u32 = 10;

/// What is wrong with a text that can't stand in the line of an event or a service check: that of the status `UNFIT`, and of
/// those after it.
const UNFIT_TEXTS: [&str; 7] = [
    "separator in the name of a service check",
    "separator in the host",
    "separator in the aggregation key",
    "separator in the source type",
    "separator in a tag",
    "separator in the container",
    "bar in the message of a service check",
];

unsafe extern "C" {
    fn cadence_prefix_text(
        prefix: *const u8,
        len: usize,
        strict: bool,
        cleaned: bool,
        out: *mut u8,
        room: usize,
        size: *mut usize,
    ) -> u32;
    fn cadence_tags_text(
        tags: *const Tag<'_>,
        len: usize,
        strict: bool,
        cleaned: bool,
        out: *mut u8,
        room: usize,
        size: *mut usize,
    ) -> u32;
    fn cadence_test_text(text: *const u8, len: usize) -> u32;
    fn cadence_cleaned_text(text: *const u8, len: usize, out: *mut u8, room: usize, size: *mut usize) -> u32;
    fn cadence_decimal_of_double(value: f64, number: *mut Decimal) -> u32;
    fn cadence_destination(
        variables: *const Variables<'_>,
        out: *mut u8,
        room: usize,
        size: *mut usize,
        port: *mut u16,
        capacity: *mut usize,
        only_ipv6: *mut bool,
        variable: *mut u32,
    ) -> u32;
    fn cadence_environment_prefix(
        variables: *const Variables<'_>,
        out: *mut u8,
        room: usize,
        size: *mut usize,
        variable: *mut u32,
    ) -> u32;
    fn cadence_environment_container(
        variables: *const Variables<'_>,
        groups: *const u8,
        groups_len: usize,
        inode: u64,
        out: *mut u8,
        room: usize,
        size: *mut usize,
        variable: *mut u32,
    ) -> u32;
    fn cadence_environment_tags(
        variables: *const Variables<'_>,
        out: *mut u8,
        room: usize,
        size: *mut usize,
        variable: *mut u32,
    ) -> u32;
    fn cadence_environment_external(
        variables: *const Variables<'_>,
        out: *mut u8,
        room: usize,
        size: *mut usize,
        variable: *mut u32,
    ) -> u32;
    fn cadence_environment_cardinality(variables: *const Variables<'_>, cardinality: *mut u32, variable: *mut u32) -> u32;
    fn cadence_variable_text(variable: u32, out: *mut u8, room: usize, size: *mut usize) -> u32;
}

/// Returns an error if a status isn't `OK`.
#[inline]
pub(crate) fn checked(status: u32) -> io::Result<()> {
    match status {
        OK => Ok(()),
        status => Err(refusal(status)),
    }
}

#[cold]
fn refusal(status: u32) -> io::Error {
    match status {
        NO_MEMORY => io::ErrorKind::OutOfMemory.into(),
        status => io::Error::other(format!("the library answered the status {status}")),
    }
}

/// Returns the error of a call that was given texts and numbers. Kinds and rates are valid here, so a number that is invalid
/// is a float.
#[cold]
pub(crate) fn call_refusal(status: u32) -> MetricError {
    match status {
        SEPARATOR => (ErrorKind::InvalidInput, "separator in a text").into(),
        INVALID => (ErrorKind::InvalidInput, "a float is NaN, infinite or too large").into(),
        status => match UNFIT_TEXTS.get(status.wrapping_sub(UNFIT) as usize) {
            Some(text) => (ErrorKind::InvalidInput, *text).into(),
            None => refusal(status).into(),
        },
    }
}

/// Returns the text that a call of the library writes, or its status. `call` gets a room of at least so many bytes, and how
/// many it has; it returns a status, and sets the length of its text. If the status is `TOO_SMALL`, it gets a room of this
/// length.
///
/// # Safety
/// If `call` returns `OK`, it has written that many bytes to the room, and they are UTF-8.
pub(crate) unsafe fn text_of(mut least: usize, mut call: impl FnMut(*mut u8, usize, &mut usize) -> u32) -> Result<String, u32> {
    loop {
        let (mut bytes, mut size) = (Vec::<u8>::with_capacity(least), 0);
        match call(bytes.as_mut_ptr(), bytes.capacity(), &mut size) {
            OK => {
                // SAFETY: the call has written the first `size` bytes of the room, and they are UTF-8.
                return Ok(unsafe {
                    bytes.set_len(size);
                    String::from_utf8_unchecked(bytes)
                });
            }
            TOO_SMALL => least = size,
            status => return Err(status),
        }
    }
}

/// Returns the decimal of a rate. It fails with `InvalidInput` if the rate is NaN or infinite, or if its decimal needs more
/// than 63 bits.
#[inline]
pub(crate) fn decimal_of(rate: f64) -> MetricResult<Decimal> {
    let mut decimal = Decimal::default();
    // SAFETY: the call writes a decimal in the layout of `Decimal`.
    match unsafe { cadence_decimal_of_double(rate, &mut decimal) } {
        OK => Ok(decimal),
        status => Err(call_refusal(status)),
    }
}

/// Returns the text that a call writes about the variables, or the number of a variable that is malformed, which the call
/// sets. If memory has run out, the process ends, as it does for a `Vec`.
///
/// # Safety
/// As for `text_of`.
unsafe fn said(mut call: impl FnMut(*mut u8, usize, &mut usize, &mut u32) -> u32) -> Result<String, u32> {
    let mut variable = 0;
    // SAFETY: as the caller promises.
    unsafe { text_of(0, |out, room, size| call(out, room, size, &mut variable)) }.map_err(|status| match status {
        VARIABLE => variable,
        _ => handle_alloc_error(Layout::new::<String>()),
    })
}

/// Returns where the variables say to send: a host and its port, or the path of a Unix socket and the port 0, or an empty
/// text and the port 0 if nothing is sent. The last number is how many bytes a packet has, and the last word whether the
/// host is looked up for addresses of IPv6 alone.
pub(crate) fn destination(variables: &Variables<'_>) -> Result<(String, u16, usize, bool), u32> {
    let (mut port, mut capacity, mut only_ipv6) = (0, 0, false);
    // SAFETY: the call reads the values with their lengths, and only writes to the room and the numbers. It writes a part
    // of a value that is UTF-8.
    let text = unsafe {
        said(|out, room, size, variable| {
            cadence_destination(variables, out, room, size, &mut port, &mut capacity, &mut only_ipv6, variable)
        })?
    };
    Ok((text, port, capacity, only_ipv6))
}

/// Returns the prefix that the variables say.
pub(crate) fn environment_prefix(variables: &Variables<'_>) -> Result<String, u32> {
    // SAFETY: as in `destination`.
    unsafe { said(|out, room, size, variable| cadence_environment_prefix(variables, out, room, size, variable)) }
}

/// Returns the default container that the variables say, for a process with these control groups, or an empty text.
pub(crate) fn environment_container(variables: &Variables<'_>, groups: &[u8], inode: u64) -> Result<String, u32> {
    let (text, len) = (groups.as_ptr(), groups.len());
    // SAFETY: as in `destination`. The call reads the groups with their length.
    unsafe {
        said(|out, room, size, variable| cadence_environment_container(variables, text, len, inode, out, room, size, variable))
    }
}

/// Returns the text of the tags that the variables say.
pub(crate) fn environment_tags(variables: &Variables<'_>) -> Result<String, u32> {
    // SAFETY: as in `destination`.
    unsafe { said(|out, room, size, variable| cadence_environment_tags(variables, out, room, size, variable)) }
}

/// Returns the default external data that the variables say, or an empty text.
pub(crate) fn environment_external(variables: &Variables<'_>) -> Result<String, u32> {
    // SAFETY: as in `destination`.
    unsafe { said(|out, room, size, variable| cadence_environment_external(variables, out, room, size, variable)) }
}

/// Returns the number of the default cardinality that the variables say, or 0.
pub(crate) fn environment_cardinality(variables: &Variables<'_>) -> Result<u32, u32> {
    let mut cardinality = 0;
    // SAFETY: the call reads the values with their lengths, and only writes to the numbers. So the text is empty.
    unsafe { said(|_, _, _, variable| cadence_environment_cardinality(variables, &mut cardinality, variable))? };
    Ok(cardinality)
}

/// Returns the message for the variable of this number: its name, and what its value has to be.
pub(crate) fn variable_text(variable: u32) -> String {
    // SAFETY: the call only writes to the room, and what it writes is ASCII.
    unsafe { text_of(0, |out, room, size| cadence_variable_text(variable, out, room, size)) }.unwrap_or_default()
}

/// How many tags of a call need no memory of their own.
const FIRST: usize = 4;

/// The tags of a call. The first ones need no memory of their own.
pub(crate) struct Tags<'a> {
    /// The tags as long as `more` is empty; the first `len` are there.
    first: [MaybeUninit<Tag<'a>>; FIRST],
    len: usize,
    /// All tags, if there are more than fit into `first`.
    more: Vec<Tag<'a>>,
}

impl<'a> Tags<'a> {
    #[inline]
    pub(crate) fn new() -> Self {
        Tags { first: [const { MaybeUninit::uninit() }; FIRST], len: 0, more: Vec::new() }
    }

    #[inline]
    pub(crate) fn push(&mut self, tag: Tag<'a>) {
        match self.first.get_mut(self.len) {
            Some(place) => {
                place.write(tag);
                self.len += 1;
            }
            None => self.more = more_tags(mem::take(&mut self.more), self.first, tag),
        }
    }

    #[inline]
    pub(crate) fn as_slice(&self) -> &[Tag<'a>] {
        if !self.more.is_empty() {
            return &self.more;
        }
        // SAFETY: the first `len` places were written.
        unsafe { slice::from_raw_parts(self.first.as_ptr().cast(), self.len) }
    }
}

/// Returns all tags of a call that has more than fit into `first`, with one more.
// It gets copies, because the compiler moves a builder without copying it only if no other function gets its address.
#[cold]
fn more_tags<'a>(mut more: Vec<Tag<'a>>, first: [MaybeUninit<Tag<'a>>; FIRST], tag: Tag<'a>) -> Vec<Tag<'a>> {
    if more.is_empty() {
        more.reserve(2 * FIRST);
        // SAFETY: a tag is added here only after each place of `first` was written.
        more.extend(first.map(|tag| unsafe { tag.assume_init() }));
    }
    more.push(tag);
    more
}
