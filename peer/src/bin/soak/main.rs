//! Random inputs for every C entry, each answer and all bytes compared with the independent program.
//!
//! Every lent buffer stands between canaries. An input has random numbers of its own, made from the
//! seed, the entry and the input's number, so that one input can be repeated alone:
//!
//!     soak             some millions of inputs
//!     soak --short     a fixed slice of them, for the gate
//!     soak --memcheck  a few, in heap blocks of just their size, to be run under valgrind
//!     soak --plant F   one faulty call that memcheck must see: overread, overwrite or unset
//!
//! `SEED` names the seed, `COUNT` multiplies the inputs, `ONLY` names one entry (as in C, after
//! `gridprofile_`) and `AT` one input of it.

mod jobs;
mod lent;
mod lines;
mod plant;
mod run;
mod scheme;
mod small;
mod store;
mod tables;
mod turn;
mod world;

use lent::Fence;
use run::Run;
use std::env;
use std::str::FromStr;
use std::time::{SystemTime, UNIX_EPOCH};

/// The short run has one of so many inputs of the long one, and that under memcheck.
const SHORT: f64 = 15.0;
const MEMCHECK: f64 = 400.0;

/// The seed of the fixed slice.
const FIXED: u64 = 0x736F_616B;

fn clock() -> u64 {
    SystemTime::now().duration_since(UNIX_EPOCH).map_or(FIXED, |time| time.as_nanos() as u64)
}

/// A variable's number, or none where it is not set or empty.
fn variable<T: FromStr>(name: &str) -> Option<T> {
    let text = env::var(name).ok().filter(|text| !text.is_empty())?;
    Some(text.parse().unwrap_or_else(|_| panic!("{name}={text} is no number")))
}

fn main() {
    let words: Vec<String> = env::args().skip(1).collect();
    let words: Vec<&str> = words.iter().map(String::as_str).collect();
    let (seed, count) = (variable("SEED"), variable("COUNT").unwrap_or(1.0));
    let (only, at) = (env::var("ONLY").unwrap_or_default(), variable("AT"));
    let run = match words[..] {
        [] => Run { seed: seed.unwrap_or_else(clock), scale: count, fence: Fence::Canaries, only, at },
        ["--short"] => Run { seed: seed.unwrap_or(FIXED), scale: count / SHORT, fence: Fence::Canaries, only, at },
        ["--memcheck"] => Run { seed: seed.unwrap_or(FIXED), scale: count / MEMCHECK, fence: Fence::Heap, only, at },
        ["--plant", fault] => return plant::call(fault),
        _ => panic!("usage: soak [--short | --memcheck | --plant overread|overwrite|unset]"),
    };
    run.all(&jobs::all());
}
