//! Sizes of the input and of the lent buffer.

use crate::{compare, demand};
use peer::evaluate::cases::{places, with_field, LISTED, PLAIN};
use peer::formula::cases::of_length;
use peer::harness::Tally;
use peer::line::LONGEST;

/// Every buffer up to twice the right one, for what is good and for every refusal: 1 comes first.
#[test]
fn buffers() {
    let mut t = Tally::new("evaluate_line, buffers");
    for (_, input, wanted) in LISTED {
        for room in 0..=168 {
            let due = if room == LONGEST { wanted.err().unwrap_or(0) } else { 1 };
            assert_eq!(compare(&mut t, input.as_bytes(), room), due, "{input:?} into {room}");
        }
    }
    for room in [0, 1, 83, 84, 85, 168, 400] {
        let due = |refusal| if room == LONGEST { refusal } else { 1 };
        assert_eq!(compare(&mut t, b"", room), due(5), "nothing into {room}");
        assert_eq!(compare(&mut t, &[b'1'; 401], room), 1, "too much into {room}");
    }
    t.finish(169 * LISTED.len(), &[0, 1, 5, 11, 12]);
}

/// Inputs of every length that hold no line: 401 bytes and more are 1, and all others 5.
#[test]
fn inputs_of_every_length() {
    let mut t = Tally::new("evaluate_line, lengths of inputs");
    for len in 0..=900 {
        for filler in [b'1', b',', b'N', b'\n', 0, 0xFF] {
            let mut input = vec![filler; len];
            demand(&mut t, &input, Err(if len > 400 { 1 } else { 5 }));
            if let Some(last) = input.last_mut() {
                *last = b'\n';
            }
            demand(&mut t, &input, Err(if len > 400 { 1 } else { 5 }));
        }
    }
    t.finish(901 * 12, &[1, 5]);
}

/// A line with the other fields as long as they may be and these limits.
fn long_line(with_rate: bool, limits: [&str; 5]) -> String {
    let [a, b, c, d, e] = limits.map(|limit| format!("{limit},60000"));
    let (tag, end) = if with_rate { ("GP2", format!(",{e}")) } else { ("GP1", String::new()) };
    format!("{tag},ZZ,D,4294967295,1000,60,{a},{b},{c},{d}{end}\n")
}

/// The most bytes that a good line has: 64 for each limit, and for the other fields what the longest profile line has.
#[test]
fn the_longest_good_line() {
    let mut t = Tally::new("evaluate_line, the longest good lines");
    let numbers = [1_500, 999, 5_000, -5_000, 10_000];
    let (formulas, plain) = (numbers.map(|number| of_length(number, 64)), numbers.map(|number| number.to_string()));
    for (with_rate, len) in [(false, 84 - 12 - 16 + 4 * 64), (true, 84 - 21 + 5 * 64)] {
        let limits = formulas.each_ref().map(String::as_str);
        let input = long_line(with_rate, limits);
        assert_eq!(input.len(), len);
        let line = long_line(with_rate, plain.each_ref().map(String::as_str));
        demand(&mut t, input.as_bytes(), Ok(line.as_bytes()));
        for (at, number) in numbers.into_iter().enumerate().take(if with_rate { 5 } else { 4 }) {
            let (mut more, longer) = (limits, of_length(number, 65));
            more[at] = &longer;
            demand(&mut t, long_line(with_rate, more).as_bytes(), Err(11));
        }
    }
    t.finish(11, &[0, 11]);
}

/// Up to 400 bytes the fault of a line decides, and past them the length, wherever the bytes are: in a limit that is
/// too long, in a field that is no limit, or after the line.
#[test]
fn about_400_bytes() {
    let mut t = Tally::new("evaluate_line, about 400 bytes");
    for len in 380..=420 {
        let due = |refusal| Err(if len > 400 { 1 } else { refusal });
        for (line, at, _) in places() {
            let field = line.trim_end().split(',').nth(at).expect("a limit").len();
            for zeros in ["-0", "(", "1", " "] {
                let limit: String = zeros.chars().cycle().take(len - line.len() + field).collect();
                demand(&mut t, &with_field(line, at, limit.as_bytes()), due(11));
            }
            let delay = "1".repeat(len - line.len() + line.trim_end().split(',').nth(at + 1).expect("a delay").len());
            demand(&mut t, &with_field(line, at + 1, delay.as_bytes()), due(5));
        }
        for line in PLAIN {
            demand(&mut t, (line.to_string() + &"\n".repeat(len - line.len())).as_bytes(), due(5));
            demand(&mut t, &line.repeat(10).as_bytes()[..len], due(5));
        }
    }
    t.finish(41 * (9 * 5 + 4), &[1, 5, 11]);
}

/// A formula makes an input shorter than any profile line, and it is good all the same.
#[test]
fn short_inputs() {
    let mut t = Tally::new("evaluate_line, short inputs");
    let short = [
        ("GP1,AA,C,1,500,50,N*3,20,1,20,1,20,-1,20\n", "GP1,AA,C,1,500,50,1500,20,1,20,1,20,-1,20\n"),
        ("GP2,AA,C,1,500,50,N*3,20,1,20,1,20,-1,20,N,20\n", "GP2,AA,C,1,500,50,1500,20,1,20,1,20,-1,20,500,20\n"),
    ];
    for ((input, line), len) in short.into_iter().zip([41, 46]) {
        assert_eq!(input.len(), len);
        demand(&mut t, input.as_bytes(), Ok(line.as_bytes()));
        for end in 0..len {
            demand(&mut t, &input.as_bytes()[..end], Err(5));
        }
    }
    t.finish(89, &[0, 5]);
}
