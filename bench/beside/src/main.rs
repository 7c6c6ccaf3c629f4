//! `beside calls N [SEED]`: makes N random calls over the binding for Rust and over the Rust crate cadence, and
//! compares what each call returns, the line that its sink gets, and what its error handler gets. It prints how many
//! differ. The differences that docs/rust.md names are counted apart, and each other one is printed; then the status
//! is 1.
//!
//! `beside WORK ours|theirs N`: does one work N times over one of the two, for callgrind. It prints a check, which is
//! the same for both. `beside WORK turns N TURNS` does it over both in turns, and prints medians of nanoseconds. The
//! works are `count`, `tags`, `gauge2`, `gauge16` and `udp`.
//!
//! - `call`: a call as data, and random ones.
//! - `named`: the differences that the page names.
//! - `side`: a call, and the works, over either crate.

mod call;
mod named;
mod side;

use call::{Call, Random};
use named::Reason;
use side::{our_side, their_side};
use std::collections::BTreeMap;
use std::process::ExitCode;
use std::time::Instant;

const USAGE: &str = "beside calls N [SEED]
beside count|tags|gauge2|gauge16|udp ours|theirs N
beside count|tags|gauge2|gauge16|udp turns N TURNS";

/// How many differences are printed.
const MOST_PRINTED: u64 = 20;

/// Compares random calls, and returns whether each difference is one that the page names.
fn compare(calls: u64, seed: u64) -> bool {
    let (mut random, mut named, mut others) = (Random(seed), BTreeMap::<&str, u64>::new(), 0);
    for number in 0..calls {
        let call = Call::random(&mut random);
        let (ours, theirs) = (our_side::answer(&call), their_side::answer(&call));
        match Reason::of(&call, &ours, &theirs) {
            Reason::Alike => {}
            Reason::Named(why) => *named.entry(why).or_default() += 1,
            Reason::Other => {
                others += 1;
                if others <= MOST_PRINTED {
                    println!("call {number} {call:?}\n  ours   {ours:?}\n  theirs {theirs:?}");
                }
            }
        }
    }
    println!("{calls} calls, seed {seed}: {} differ", named.values().sum::<u64>() + others);
    for (why, count) in named {
        println!("{count:>9} {why}");
    }
    println!("{others:>9} for no reason that the page names");
    others == 0
}

/// Does a work over both crates in turns, and prints the median of the nanoseconds of a call for each.
fn in_turns(ours: impl Fn() -> u64, theirs: impl Fn() -> u64, calls: u64, turns: usize) {
    let mut times = [Vec::new(), Vec::new()];
    for _ in 0..turns.max(1) {
        for (times, work) in times.iter_mut().zip([&ours as &dyn Fn() -> u64, &theirs]) {
            let start = Instant::now();
            std::hint::black_box(work());
            times.push(start.elapsed().as_nanos() as f64 / calls as f64);
        }
    }
    let [ours, theirs] = times.map(|mut times| {
        times.sort_by(f64::total_cmp);
        times[times.len() / 2]
    });
    println!("ours {ours:.1} ns, theirs {theirs:.1} ns, ratio {:.2}", ours / theirs);
}

/// Does what the words ask for. Returns `None` if they ask for nothing.
fn run(words: &[&str]) -> Option<bool> {
    let number = |word: &str| word.parse::<u64>().ok();
    match *words {
        ["calls", calls] => return Some(compare(number(calls)?, 1)),
        ["calls", calls, seed] => return Some(compare(number(calls)?, number(seed)?)),
        [work, "ours", calls] => println!("{}", (our_side::work(work)?)(number(calls)?)),
        [work, "theirs", calls] => println!("{}", (their_side::work(work)?)(number(calls)?)),
        [work, "turns", calls, turns] => {
            let (ours, theirs, calls) = (our_side::work(work)?, their_side::work(work)?, number(calls)?);
            in_turns(|| ours(calls), || theirs(calls), calls, number(turns)? as usize);
        }
        _ => return None,
    }
    Some(true)
}

fn main() -> ExitCode {
    let words: Vec<String> = std::env::args().skip(1).collect();
    match run(&words.iter().map(String::as_str).collect::<Vec<_>>()) {
        Some(true) => ExitCode::SUCCESS,
        Some(false) => ExitCode::FAILURE,
        None => {
            eprintln!("{USAGE}");
            ExitCode::from(2)
        }
    }
}
