//! `bench-rust MODE N [SIZES]`: does the work of one mode N times over the Rust crate cadence, and prints how long a call
//! takes.
//!
//! The modes, their words and what is printed are those of `crates/bench` of this repository, which does the same work
//! over this library. `crates/bench/run.py --this PROGRAM --rust PROGRAM` compares the two. Standard output has the number
//! `check`, which is the same for both if they did the same work; standard error has the time.
//!
//! - `arguments`: the words of the command line.
//! - `client`: calls of a client over a sink that does nothing.
//! - `sinks`: lines into a packer, into sinks and into queues, from one thread.
//! - `callers`: the same from several threads, and a service.
//! - `done`: what the work of a mode gave, and how it is printed.

mod arguments;
mod callers;
mod client;
mod done;
mod sinks;

use arguments::{Arguments, USAGE};
use std::process::ExitCode;

fn main() -> ExitCode {
    let words: Vec<String> = std::env::args().skip(1).collect();
    let Some(arguments) = Arguments::parse(&words) else {
        eprintln!("{USAGE}");
        return ExitCode::from(2);
    };
    match (arguments.work)(&arguments) {
        Ok(done) => {
            done.print(&arguments);
            ExitCode::SUCCESS
        }
        Err(error) => {
            eprintln!("bench-rust: {}: {error}", arguments.name);
            ExitCode::FAILURE
        }
    }
}
