//! What the work of a mode gave, and how it is printed.

use crate::arguments::Arguments;
use std::time::Duration;

/// What a mode prints besides its time.
pub enum Note {
    /// Nothing.
    Nothing,
    /// The number of packets that were sent.
    Packets(u64),
    /// The number of lines that a queue accepted, and the time until the last of them was taken.
    Accepted(u64, Duration),
}

/// What the measured part of a mode gave.
pub struct Done {
    /// How long it took.
    pub time: Duration,
    /// A number that is the same for each program that did the same work.
    pub check: u64,
    /// What else is printed.
    pub note: Note,
}

impl Done {
    /// Returns what packets gave.
    pub fn of_packets(time: Duration, bytes: u64, packets: u64) -> Self {
        Self { time, check: bytes.wrapping_mul(1_000_003).wrapping_add(packets), note: Note::Packets(packets) }
    }

    /// Returns what a queue gave. How many lines a queue with a bound accepts depends on the threads' turns, so its check
    /// is 0.
    pub fn of_queue(time: Duration, capacity: usize, accepted: u64, drained: Duration) -> Self {
        Self { time, check: if capacity == 0 { accepted } else { 0 }, note: Note::Accepted(accepted, drained) }
    }

    /// Prints the check on standard output, and the time of a call in nanoseconds on standard error.
    pub fn print(&self, arguments: &Arguments) {
        let calls = arguments.calls.max(1) as f64;
        println!("{} n={} check={}", arguments.name, arguments.calls, self.check);
        match self.note {
            Note::Nothing => {}
            Note::Packets(packets) => eprint!("packets={packets} "),
            Note::Accepted(accepted, time) => eprint!(
                "accepted={accepted} drained_ns_per={:.1} lines_per_ms={:.0} ",
                time.as_nanos() as f64 / calls,
                accepted as f64 / (time.as_secs_f64() * 1e3)
            ),
        }
        eprintln!("ns_per={:.1}", self.time.as_nanos() as f64 / calls);
    }
}
