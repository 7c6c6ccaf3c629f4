// SPDX-License-Identifier: MIT OR Apache-2.0
//! How often a call asks for memory.
use cadence::prelude::*;
use cadence::{BufferedSpyMetricSink, NopMetricSink, QueuingMetricSink, StatsdClient};
use std::alloc::{GlobalAlloc, Layout, System};
use std::cell::Cell;

thread_local! {
    static REQUESTS: Cell<u64> = const { Cell::new(0) };
}

/// Counts the requests of each thread.
struct Counting;

// SAFETY: each call is passed on to the system's allocator.
unsafe impl GlobalAlloc for Counting {
    unsafe fn alloc(&self, layout: Layout) -> *mut u8 {
        let _ = REQUESTS.try_with(|requests| requests.set(requests.get() + 1));
        System.alloc(layout)
    }

    unsafe fn realloc(&self, at: *mut u8, layout: Layout, size: usize) -> *mut u8 {
        let _ = REQUESTS.try_with(|requests| requests.set(requests.get() + 1));
        System.realloc(at, layout, size)
    }

    unsafe fn dealloc(&self, at: *mut u8, layout: Layout) {
        System.dealloc(at, layout)
    }
}

#[global_allocator]
static ALLOCATOR: Counting = Counting;

/// Returns how often this thread requests memory in a call. An earlier call requests what is requested only once.
fn requests(call: impl Fn()) -> u64 {
    call();
    let before = REQUESTS.with(Cell::get);
    call();
    REQUESTS.with(Cell::get) - before
}

#[test]
fn a_short_line_needs_no_memory_and_more_than_four_tags_do() {
    let client = StatsdClient::from_sink("p", NopMetricSink);
    assert_eq!(0, requests(|| drop(client.count("k", i64::MIN).unwrap())));
    assert_eq!(0, requests(|| drop(client.gauge("k", 1.25).unwrap())));
    assert_eq!(0, requests(|| drop(client.gauge("k", -1.0 / 3.0).unwrap())));
    assert_eq!(0, requests(|| client.gauge_with_tags("k", 1e-25).with_sampling_rate(1e-7).with_timestamp(u64::MAX).send()));
    assert_eq!(0, requests(|| client.incr_with_tags("k").with_container_id("box").send()));
    assert_eq!(0, requests(|| drop(client.set_text("k", "member").unwrap())));
    let tagged = || client.count_with_tags("k", 1).with_tag("a", "b").with_tag("c", "d").with_tag_value("e");
    assert_eq!(0, requests(|| drop(tagged().try_send().unwrap())));
    assert_eq!(0, requests(|| tagged().with_tag("f", "g").send()));
    assert_eq!(1, requests(|| tagged().with_tag("f", "g").with_tag("h", "i").send()));
    assert_eq!(1, requests(|| tagged().with_tag("f", "g").with_tag("h", "i").with_tag_value("j").send()));
    let list = requests(|| drop(client.histogram("k", vec![1.5, 2.5, 3.5, 4.5]).unwrap()));
    assert_eq!(1, list, "the list");
}

#[test]
fn a_long_line_is_one_request() {
    let client = StatsdClient::from_sink("", NopMetricSink);
    let of_length = |length: usize| {
        let key = "k".repeat(length - ":1|c".len());
        [requests(|| drop(client.incr(&key).unwrap())), requests(|| drop(client.incr_with_tags(&key).try_send().unwrap()))]
    };
    assert_eq!([0, 0], of_length(126));
    for length in [127, 512, 513, 900, 5000] {
        assert_eq!([1, 1], of_length(length), "{length} bytes");
    }
}

#[test]
fn a_queue_takes_a_copy_of_the_line() {
    let client = StatsdClient::from_sink("p", QueuingMetricSink::from(NopMetricSink));
    assert_eq!(1, requests(|| drop(client.incr("k").unwrap())));
    assert_eq!(1, requests(|| client.incr_with_tags("k").with_tag("a", "b").send()));
}

#[test]
fn a_held_line_takes_no_memory() {
    let (_receiver, sink) = BufferedSpyMetricSink::with_capacity(None, Some(4096));
    let client = StatsdClient::from_sink("p", sink);
    assert_eq!(0, requests(|| drop(client.incr("k").unwrap())));
}
