//! Lines with a rate point beside lines without: their lengths, their tags and how many fields they have.

use crate::{reader, some_lengths, written, IMAGE};
use peer::harness::Comparison;
use peer::line::cases::{by_length, fields, joined};

/// What is due of a line that breaks a rule.
fn due(line: &[u8]) -> u8 {
    if (42..=84).contains(&line.len()) {
        5
    } else {
        1
    }
}

fn refused(c: &mut Comparison, line: &[u8]) {
    c.demand(line, IMAGE, due(line));
}

/// A valid line of every length that its kind has. With the other tag it is refused, and never for its length.
#[test]
fn every_length() {
    let mut c = reader().at_least(134);
    for (with_rate, lengths, other) in [(false, 42..=72, b'2'), (true, 49..=84, b'1')] {
        for (profile, len) in by_length(with_rate).iter().zip(lengths) {
            let mut line = written(profile);
            assert_eq!(line.len(), len);
            c.demand(&line, IMAGE, 0);
            line[2] = other;
            c.demand(&line, IMAGE, 5);
        }
    }
    c.finish(&[0, 5]);
}

/// After each tag nothing that makes a line, at every length.
#[test]
fn no_line_at_every_length() {
    let mut c = reader().at_least(2_000);
    for len in 1..=100 {
        for tag in [&b"GP1,"[..], b"GP2,"] {
            for filler in [b'x', b'1', b',', b'-', 0] {
                let mut line = tag.to_vec();
                line.resize(len, filler);
                refused(&mut c, &line);
                line.pop();
                line.push(b'\n');
                refused(&mut c, &line);
            }
        }
    }
    c.finish(&[1, 5]);
}

/// 14 fields with too many digits up to the length of the longest line with a rate point, and past it.
#[test]
fn too_long_without_a_rate_point() {
    let mut c = reader().at_least(14 * 28);
    let whole = fields(by_length(false).last().expect("a profile"));
    for more in 1..=28 {
        for at in 0..whole.len() {
            let mut other = whole.clone();
            other[at] += &"0".repeat(more);
            refused(&mut c, &joined(&other));
        }
    }
    c.finish(&[1, 5]);
}

/// 16 fields with too few digits down to the length of the shortest line without a rate point, and below it.
#[test]
fn too_short_with_a_rate_point() {
    let mut c = reader().at_least(27);
    let mut other = fields(&by_length(true)[0]);
    for at in (3..other.len()).rev() {
        while other[at].pop().is_some() {
            refused(&mut c, &joined(&other));
        }
    }
    c.finish(&[1, 5]);
}

/// Lines of both kinds cut after each byte, with and without a line feed at the new end; without each of their bytes;
/// and with one more byte, of any value, at every place and after the line feed.
#[test]
fn cut_and_lengthened() {
    let mut c = reader().at_least(97_625);
    for line in some_lengths() {
        for end in 0..line.len() {
            refused(&mut c, &line[..end]);
            c.agree(&[&line[..end], b"\n"].concat(), IMAGE);
            c.agree(&[&line[..end], &line[end + 1..]].concat(), IMAGE);
        }
        for byte in 0..=255 {
            for at in 0..line.len() {
                c.agree(&[&line[..at], &[byte], &line[at..]].concat(), IMAGE);
            }
            refused(&mut c, &[&line[..], &[byte]].concat());
        }
    }
    c.finish(&[0, 1, 5]);
}

const TAGS: [&str; 18] = [
    "GP1", "GP2", "GP0", "GP3", "GP9", "gp1", "gp2", "gP2", "Gp2", "GP", "G2", "2", "GP12", "GP21", "GP02", "GP+2",
    "GP-2", "GP2 ",
];

/// Only GP1 with 14 fields and GP2 with 16 make a line, and only with a comma after the tag.
#[test]
fn tags_and_fields() {
    let mut c = reader().at_least(2 * 18 * 9);
    let numbers = "13,230,50,1150,100,800,1500,1500,100,-2500,100,2000,500,100,100".split(',').collect::<Vec<_>>();
    for tag in TAGS {
        for count in 10..=18 {
            let rest = format!("XA,B,{}\n", numbers[..count - 3].join(","));
            let right = (tag, count) == ("GP1", 14) || (tag, count) == ("GP2", 16);
            let line = format!("{tag},{rest}");
            c.demand(line.as_bytes(), IMAGE, if right { 0 } else { due(line.as_bytes()) });
            refused(&mut c, format!("{tag}{rest}").as_bytes());
        }
    }
    c.finish(&[0, 1, 5]);
}
