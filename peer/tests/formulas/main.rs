//! Lines with formulas evaluated through C, beside the independent program: the answer, the length and every byte lent.

mod any;
mod frame;
mod limits;
mod sizes;

use peer::archive;
use peer::evaluate::cases::LISTED;
use peer::evaluate::evaluate_line;
use peer::harness::Tally;
use peer::line::{IMAGE, LONGEST};
use peer::table::BUILT_IN_IMAGE;

/// Compares one evaluation into a buffer of `room` bytes, with some old length.
fn compare(t: &mut Tally, input: &[u8], room: usize) -> u8 {
    let (own, old) = (input.to_vec(), t.inputs().wrapping_mul(0x9E37_79B9));
    let shown = || format!("\"{}\", {} bytes, into {room} bytes", input.escape_ascii(), input.len());
    let proved = |out: &mut [u8]| archive::evaluate_line(&BUILT_IN_IMAGE, &own, out, old);
    let answer = t.both(room, proved, |out| evaluate_line(&BUILT_IN_IMAGE, input, out, old), shown);
    assert!(own == input, "input {}", shown());
    answer
}

/// A line as the library reads and writes it again.
fn read_back(line: &[u8]) -> Vec<u8> {
    let (mut image, mut out) = ([0; IMAGE], [0; LONGEST]);
    assert_eq!(archive::read_line(&BUILT_IN_IMAGE, line, &mut image), 0, "{}", line.escape_ascii());
    let (answer, length) = archive::write_line(&BUILT_IN_IMAGE, &image, &mut out, 0);
    assert_eq!(answer, 0, "{}", line.escape_ascii());
    out[..length].to_vec()
}

/// The line that both give, or their refusal. What comes out is read.
fn evaluated(t: &mut Tally, input: &[u8]) -> Result<Vec<u8>, u8> {
    match compare(t, input, LONGEST) {
        0 => (),
        refusal => return Err(refusal),
    }
    let mut out = [0; LONGEST];
    let (answer, length) = archive::evaluate_line(&BUILT_IN_IMAGE, input, &mut out, 0);
    assert!(answer == 0 && read_back(&out[..length]) == out[..length], "{}", input.escape_ascii());
    Ok(out[..length].to_vec())
}

/// Demands this line or this refusal of both.
fn demand(t: &mut Tally, input: &[u8], wanted: Result<&[u8], u8>) {
    let found = evaluated(t, input);
    assert_eq!(found.as_deref(), wanted.as_ref().copied(), "{}", input.escape_ascii());
}

#[test]
fn lines_written_by_hand() {
    let mut t = Tally::new("evaluate_line, lines written by hand");
    for (_, input, wanted) in LISTED {
        demand(&mut t, input.as_bytes(), wanted.map(str::as_bytes));
    }
    t.finish(LISTED.len(), &[0, 5, 11, 12]);
}
