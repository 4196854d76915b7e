//! The program, fed through a pipe.

use peer::preview::cases::{any, named, LISTED};
use peer::preview::listing;
use peer::rng::Rng;
use peer::table::BUILT_IN;
use std::io::{Read, Write};
use std::process::{ChildStdin, Command, Stdio};
use std::thread;

/// The program, or the one that GRIDPROFILE_PREVIEW names.
fn path() -> String {
    let made = concat!(env!("CARGO_MANIFEST_DIR"), "/../crates/preview_main/out/preview_main");
    std::env::var("GRIDPROFILE_PREVIEW").unwrap_or(made.to_string())
}

/// How a pipe is filled.
type Feed = fn(ChildStdin, Vec<u8>);

/// A program that has read enough may close its end.
fn at_once(mut pipe: ChildStdin, input: Vec<u8>) {
    let _ = pipe.write_all(&input);
}

/// Each byte is a write of its own, so that reads come short.
fn byte_by_byte(mut pipe: ChildStdin, input: Vec<u8>) {
    for byte in input {
        if pipe.write_all(&[byte]).is_err() {
            return;
        }
        if byte == b',' {
            thread::yield_now();
        }
    }
}

/// What the program prints, and that it ends well.
fn run(input: &[u8], feed: Feed) -> String {
    let started = Command::new(path()).stdin(Stdio::piped()).stdout(Stdio::piped()).spawn();
    let mut child = started.unwrap_or_else(|error| panic!("{}: {error}", path()));
    let (pipe, input) = (child.stdin.take().expect("piped"), input.to_vec());
    let feeder = thread::spawn(move || feed(pipe, input));
    let mut out = String::new();
    child.stdout.take().expect("piped").read_to_string(&mut out).expect("letters and digits");
    feeder.join().expect("fed");
    assert!(child.wait().expect("ended").success());
    out
}

#[test]
fn the_examples_as_they_stand() {
    for (name, input, wanted) in LISTED {
        assert_eq!(run(input.as_bytes(), at_once), wanted, "{name}");
    }
}

#[test]
fn programs_agree() {
    let mut rng = Rng::new(0x7072_6F67);
    let mut inputs = named(&mut rng);
    inputs.extend((0..100).map(|_| ("any", any(&mut rng))));
    for (name, input) in &inputs {
        assert_eq!(run(input, at_once), listing(&BUILT_IN, input), "{name}");
    }
    println!("preview program: {} inputs agree", inputs.len());
}

#[test]
fn pieces_of_one_byte() {
    let inputs = named(&mut Rng::new(0x736C_6F77));
    for (name, input) in &inputs {
        assert_eq!(run(input, byte_by_byte), listing(&BUILT_IN, input), "{name}");
    }
    println!("preview program, byte by byte: {} inputs agree", inputs.len());
}
