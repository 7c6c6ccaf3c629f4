// SPDX-License-Identifier: MIT OR Apache-2.0
//! The heap of the library, and the room of each thread that it lends to a call.
use cadence::prelude::*;
use cadence::{Metric, NopMetricSink, StatsdClient};
use std::slice;

/// How many bytes the room has.
const SIZE: usize = 1024;

/// A block of memory as the library gets it, or none.
#[repr(C)]
struct Block {
    given: u64,
    at: *mut u8,
}

unsafe extern "C" {
    fn cadence_c_lend() -> *mut usize;
    fn cadence_c_alloc(size: usize, align: usize) -> Block;
    fn cadence_c_realloc(at: *mut u8, old_size: usize, size: usize, align: usize) -> Block;
    fn cadence_c_dealloc(at: *mut u8);
}

fn alloc(size: usize, align: usize) -> Block {
    // SAFETY: the heap accepts any size.
    unsafe { cadence_c_alloc(size, align) }
}

/// Lends the room to a call that keeps no memory.
fn lent<R>(call: impl FnOnce() -> R) -> R {
    // SAFETY: no memory is left of an earlier call.
    let left = unsafe { cadence_c_lend() };
    let answer = call();
    // SAFETY: the call has freed what it requested, and the place is one of this thread.
    unsafe { left.write(0) };
    answer
}

fn bytes_of_the_room(size: usize) -> Vec<u8> {
    let start = lent(|| alloc(1, 1).at);
    // SAFETY: the library has written these bytes, and the room is not lent to a call.
    unsafe { slice::from_raw_parts(start, size) }.to_vec()
}

#[test]
fn the_library_makes_its_line_in_the_room() {
    let metric = StatsdClient::from_sink("p", NopMetricSink).set("k", -7).unwrap();
    assert_eq!("p.k:-7|s", metric.as_metric_str());
    assert_eq!(b"p.k:-7|s".to_vec(), bytes_of_the_room(metric.as_metric_str().len()));
}

#[test]
fn a_line_that_passes_the_room_is_made_too() {
    let key = "k".repeat(5 * SIZE);
    let metric = StatsdClient::from_sink("", NopMetricSink).time(&key, vec![1, 2]).unwrap();
    assert_eq!(format!("{key}:1:2|ms"), metric.as_metric_str());
}

/// Grows a block by one byte at a time, beside another block.
fn grow() {
    let other = alloc(24, 8);
    let mut block = alloc(1, 1);
    for size in 1..3 * SIZE {
        // SAFETY: the block has `size` bytes, and one more after it grew.
        unsafe {
            block.at.add(size - 1).write(size as u8);
            block = cadence_c_realloc(block.at, size, size + 1, 1);
        }
        assert_eq!(1, block.given);
        assert_eq!(0, block.at as usize % 16);
    }
    // SAFETY: these bytes were written, and both blocks are freed once.
    let bytes = unsafe { slice::from_raw_parts(block.at, 3 * SIZE - 1) };
    assert!(bytes.iter().enumerate().all(|(index, byte)| *byte == (index + 1) as u8));
    // SAFETY: as above.
    [block.at, other.at].into_iter().for_each(|at| unsafe { cadence_c_dealloc(at) });
}

#[test]
fn blocks_keep_their_bytes_as_they_grow() {
    lent(grow);
    grow();
}

#[test]
fn a_request_that_cant_be_met_gives_nothing() {
    assert_eq!(0, alloc(usize::MAX / 2, 1).given);
    assert_eq!(0, lent(|| alloc(usize::MAX, 1)).given);
    let empty = lent(|| alloc(0, 8));
    assert_eq!(1, empty.given);
}
