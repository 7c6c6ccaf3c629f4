//! The words of the command line.

use crate::done::Done;
use crate::{callers, client, sinks};
use cadence::MetricError;

/// What does the work of a mode.
pub type Work = fn(&Arguments) -> Result<Done, MetricError>;

/// What the words ask for.
pub struct Arguments {
    /// The word of the mode.
    pub name: String,
    /// What does its work.
    pub work: Work,
    /// How often that is done.
    pub calls: u64,
    /// The sizes of the mode. The first is how many tags or values a call has, or how many bytes its key; or the capacity
    /// of a packer or sink in bytes, or that of a queue in lines, where 0 is no bound.
    pub sizes: Vec<usize>,
}

// The modes: each with its word, its work, and the sizes that it has if the words name none, as in `crates/bench`.
const MODES: [(&str, Work, &[usize]); 15] = [
    ("count", client::count, &[]),
    ("count_tags", client::count_tags, &[]),
    ("options", client::options, &[]),
    ("histogram4", client::histogram4, &[]),
    ("tags", client::tags, &[3]),
    ("dtags", client::default_tags, &[3]),
    ("values", client::values, &[3]),
    ("key", client::key, &[3]),
    ("packer", sinks::packer, &[512, 20]),
    ("udp", sinks::udp, &[512, 20]),
    ("queue", sinks::queue, &[512, 20]),
    ("callers", callers::queue, &[512, 20, 2]),
    ("refused", callers::refused, &[512, 20, 2]),
    ("udp_callers", callers::udp, &[512, 20, 2]),
    ("service", callers::service, &[512, 2]),
];

/// What is printed if the words name no work.
pub const USAGE: &str = "bench-rust count|count_tags|options|histogram4 N
bench-rust tags|dtags|values|key N [SIZE]
bench-rust packer|udp|queue N [CAP LEN]
bench-rust callers|refused|udp_callers N [CAP LEN CALLERS]
bench-rust service N [CAP CALLERS]";

impl Arguments {
    /// Reads the words of the command line. Returns `None` if they name no work. Without a number one call is made.
    pub fn parse(words: &[String]) -> Option<Self> {
        let (name, numbers) = words.split_first()?;
        let &(_, work, defaults) = MODES.iter().find(|(word, ..)| word == name)?;
        let (calls, given) = match numbers.split_first() {
            Some((calls, given)) if given.len() <= defaults.len() => (calls.parse().ok()?, given),
            Some(_) => return None,
            None => (1, numbers),
        };
        let mut sizes = defaults.to_vec();
        for (size, word) in sizes.iter_mut().zip(given) {
            *size = word.parse().ok()?;
        }
        Some(Self { name: name.clone(), work, calls, sizes })
    }

    /// Returns the number of callers, which is the last size. It is at least 1.
    pub fn callers(&self) -> u64 {
        self.sizes.last().map_or(1, |&callers| callers.max(1) as u64)
    }
}
