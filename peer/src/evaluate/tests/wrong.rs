//! Wrong programs, and the listed lines that show each.

use super::*;

type Program = fn(&[u8]) -> Result<Vec<u8>, Refusal>;

/// The formulas are tested before the other fields, as far as there are fields.
fn formulas_first(input: &[u8]) -> Result<Vec<u8>, Refusal> {
    let frame = Frame { table: &BUILT_IN, fields: fields(input).ok_or(BAD_PROFILE)?, volts: 230 };
    frame.values().collect::<Result<Vec<i64>, _>>()?;
    evaluated(&BUILT_IN, input)
}

fn from_the_right(input: &[u8]) -> Result<Vec<u8>, Refusal> {
    let values: Vec<_> = Frame::of(&BUILT_IN, input)?.values().collect();
    values.into_iter().rev().collect::<Result<Vec<i64>, _>>()?;
    evaluated(&BUILT_IN, input)
}

/// Each number is tested as soon as it is there.
fn ranges_at_once(input: &[u8]) -> Result<Vec<u8>, Refusal> {
    let frame = Frame::of(&BUILT_IN, input)?;
    let mut numbers = LIMITS.map(|(_, allowed)| allowed.parse().expect("a number"));
    for (at, value) in frame.values().enumerate() {
        numbers[at] = value?;
        frame.line(&numbers)?;
    }
    evaluated(&BUILT_IN, input)
}

/// The ranges come before any fault of a formula.
fn ranges_first(input: &[u8]) -> Result<Vec<u8>, Refusal> {
    let frame = Frame::of(&BUILT_IN, input)?;
    let mut numbers = LIMITS.map(|(_, allowed)| allowed.parse().expect("a number"));
    for (number, value) in numbers.iter_mut().zip(frame.values()) {
        *number = value.unwrap_or(*number);
    }
    frame.line(&numbers)?;
    evaluated(&BUILT_IN, input)
}

/// An input must have the bytes of a profile line at least.
fn least_length(input: &[u8]) -> Result<Vec<u8>, Refusal> {
    demand(input.len() >= 42, BAD_SIZE)?;
    evaluated(&BUILT_IN, input)
}

/// An input must have the bytes of a profile line at most.
fn most_length(input: &[u8]) -> Result<Vec<u8>, Refusal> {
    demand(input.len() <= 84, BAD_SIZE)?;
    evaluated(&BUILT_IN, input)
}

fn always_230(input: &[u8]) -> Result<Vec<u8>, Refusal> {
    let frame = Frame { volts: 230, ..Frame::of(&BUILT_IN, input)? };
    let numbers: Vec<i64> = frame.values().collect::<Result<_, _>>()?;
    frame.line(&numbers)
}

/// The rate must stand as in a profile line.
fn four_limits(input: &[u8]) -> Result<Vec<u8>, Refusal> {
    let frame = Frame::of(&BUILT_IN, input)?;
    let plain = |field: &&[u8]| field.iter().all(u8::is_ascii_digit) && !field.is_empty();
    demand(frame.fields.get(14).is_none_or(plain), BAD_PROFILE)?;
    evaluated(&BUILT_IN, input)
}

/// A line that is too long when it is evaluated is 1.
fn length_at_last(input: &[u8]) -> Result<Vec<u8>, Refusal> {
    let frame = Frame::of(&BUILT_IN, input)?;
    let numbers: Vec<i64> = frame.values().collect::<Result<_, _>>()?;
    let texts: Vec<String> = numbers.iter().map(i64::to_string).collect();
    let line = with_limits(&frame.fields, &texts);
    read_line(&BUILT_IN, &line).map(|_| line)
}

/// What is wrong, and the listed lines on which this shows, in their order.
#[rustfmt::skip]
const WRONG: [(&str, Program, &[&str]); 9] = [
    ("formulas before other fields", formulas_first, &[
        "12 and a delay of 19", "12 and a class of other volts", "11 and a tag of other fields",
        "11 and a last delay of 60001",
    ]),
    ("formulas from the right", from_the_right, &[
        "12 before 11", "11 before 12", "12 before 11, the last two of five", "11 before 12, the last two of five",
    ]),
    ("each range at once", ranges_at_once, &["out of range before 12", "out of range before 11"]),
    ("ranges before formulas", ranges_first, &["out of range before 12", "out of range before 11"]),
    ("42 bytes at least", least_length, &["the fewest bytes"]),
    ("84 bytes at most", most_length, &[
        "the same with a rate", "eight deep in each limit", "nine deep in the last limit", "the most bytes",
        "the most bytes with a rate", "a byte more in its last limit", "each limit of ten digits",
    ]),
    ("N is always 230", always_230, &[
        "N at 400 volts", "N at 100 volts", "the fewest bytes", "the fewest bytes with a rate",
    ]),
    ("the rate is no formula", four_limits, &[
        "the same with a rate", "12 before 11, the last two of five", "11 before 12, the last two of five",
        "out of range before 11", "N at 100 volts", "eight deep in each limit", "nine deep in the last limit",
        "the fewest bytes with a rate", "the most bytes with a rate", "a byte more in its last limit",
    ]),
    ("1 for a line that comes out too long", length_at_last, &["each limit of ten digits"]),
];

/// The listed lines on which this program gives something else than is due.
fn shown(program: Program) -> Vec<&'static str> {
    let wrong = |(_, input, due): &(&str, &str, Result<&str, Refusal>)| {
        program(input.as_bytes()) != due.map(|line| line.as_bytes().to_vec())
    };
    LISTED.into_iter().filter(wrong).map(|(name, ..)| name).collect()
}

/// Each program that is wrong shows somewhere, and just where it is said to; the right one nowhere.
#[test]
fn wrong_programs_show() {
    assert!(shown(|input| evaluated(&BUILT_IN, input)).is_empty());
    for (name, program, wanted) in WRONG {
        assert!(shown(program) == wanted && !wanted.is_empty(), "{name}: {:?}", shown(program));
    }
}
