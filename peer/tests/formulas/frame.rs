//! What a line is with its limits left aside: its end, its tag and fields, and the fields that are no limits. Whatever
//! breaks a rule there comes before the faults of formulas.

use crate::{compare, demand, evaluated};
use peer::archive;
use peer::evaluate::cases::{good, joined, places, with_field, LISTED, PLAIN};
use peer::evaluate::LIMITS;
use peer::harness::Tally;
use peer::line::cases::texts;
use peer::line::{IMAGE, LONGEST};
use peer::rng::Rng;
use peer::table::BUILT_IN_IMAGE;

/// Limits of every kind: good ones, without a formula, with a step that fails, and out of every range.
const KINDS: [(&str, u8); 6] = [("N+N", 0), ("1+", 11), ("", 11), ("1/0", 12), ("1000000*2001", 12), ("1000000", 5)];

/// Lines of both kinds with each of these as each limit.
fn some_lines() -> Vec<Vec<u8>> {
    let with = |(line, at, _): (&str, usize, _)| KINDS.map(|(limit, _)| with_field(line, at, limit.as_bytes()));
    places().into_iter().flat_map(with).chain(PLAIN.map(|line| line.as_bytes().to_vec())).collect()
}

/// No LF, two of them, a CR before it, bytes after it: 5, whatever the limits are.
#[test]
fn other_ends() {
    let mut t = Tally::new("evaluate_line, other ends");
    for line in some_lines() {
        let text = &line[..line.len() - 1];
        for end in
            [&b""[..], b"\n\n", b"\r\n", b"\n\r\n", b"\r", b"\n\0", b"\n ", b",\n", b",1\n", b" \n", b"\0\n", b"\n,"]
        {
            demand(&mut t, &[text, end].concat(), Err(5));
        }
        for byte in 0..=255 {
            demand(&mut t, &[&line[..], &[byte]].concat(), Err(5));
        }
        demand(&mut t, &line.repeat(2), Err(5));
    }
    t.finish(56 * (12 + 256 + 1), &[5]);
}

/// An LF before each byte, in a limit or not, is 5. A CR is so too, but in a limit, where it makes no formula.
#[test]
fn a_line_end_inside() {
    let mut t = Tally::new("evaluate_line, an LF or CR inside");
    for line in some_lines() {
        for at in 0..line.len() {
            demand(&mut t, &[&line[..at], b"\n", &line[at..]].concat(), Err(5));
            let commas = line[..at].iter().filter(|&&byte| byte == b',').count();
            let in_limit = LIMITS.iter().any(|(limit, _)| *limit == commas);
            let answer = evaluated(&mut t, &[&line[..at], b"\r", &line[at..]].concat());
            assert!(if in_limit { matches!(answer, Err(11 | 12)) } else { answer == Err(5) }, "{answer:?} at {at}");
        }
    }
    t.finish(56 * 2 * 50, &[5, 11, 12]);
}

const TAGS: [&str; 16] = [
    "GP1",
    "GP2",
    "GP0",
    "GP3",
    "GP9",
    "gp1",
    "gp2",
    "Gp2",
    "GP",
    "G2",
    "2",
    "",
    "GP12",
    "GP02",
    "GP2 ",
    "\u{feff}GP1",
];

/// Only GP1 with 14 fields and GP2 with 16 are evaluated; else it is 5, whatever the limits are.
#[test]
fn tags_and_fields() {
    let mut t = Tally::new("evaluate_line, tags and fields");
    for (limit, fault) in KINDS {
        let numbers = format!("13,230,50,1150,100,{limit},1500,1500,100,-2500,100,2000,500,{limit},100");
        let numbers: Vec<&str> = numbers.split(',').collect();
        for tag in TAGS {
            for count in 5..=18 {
                let line = format!("{tag},XA,B,{}\n", numbers[..count - 3].join(","));
                let right = (tag, count) == ("GP1", 14) || (tag, count) == ("GP2", 16);
                let plain = line.replace(limit, "460");
                let wanted = if fault == 0 { Ok(plain.as_bytes()) } else { Err(fault) };
                demand(&mut t, line.as_bytes(), if right { wanted } else { Err(5) });
            }
        }
    }
    t.finish(6 * 16 * 14, &[0, 5, 11, 12]);
}

/// A comma in a limit makes a field more: 5.
#[test]
fn commas() {
    let mut t = Tally::new("evaluate_line, commas");
    for (line, at, _) in places() {
        for limit in [",", "1,000", "1150,", ",1150", "(1,2)", "1/0,", ",1/0", ",,"] {
            demand(&mut t, &with_field(line, at, limit.as_bytes()), Err(5));
        }
    }
    t.finish(72, &[5]);
}

/// Whether the library takes this text as this field of a plain line.
fn is_taken(line: &str, at: usize, text: &str) -> bool {
    let mut image = [0; IMAGE];
    archive::read_line(&BUILT_IN_IMAGE, &with_field(line, at, text.as_bytes()), &mut image) == 0
}

/// Each field that is no limit, at the ends of its range, beside them and in other spellings, while each limit is good
/// or has a fault: the field comes first.
#[test]
fn every_other_field() {
    let mut t = Tally::new("evaluate_line, other fields");
    for (line, at, _) in places() {
        let others = (0..line.split(',').count()).filter(|other| LIMITS.iter().all(|(limit, _)| limit != other));
        for (other, text) in others.flat_map(|other| texts(other).into_iter().map(move |text| (other, text))) {
            let taken = is_taken(line, other, &text);
            for (limit, fault) in &KINDS[1..] {
                let whole = String::from_utf8(with_field(line, at, limit.as_bytes())).expect("letters and digits");
                let wanted = if taken { *fault } else { 5 };
                demand(&mut t, &with_field(&whole, other, text.as_bytes()), Err(wanted));
            }
        }
    }
    t.finish(9 * 9 * 20 * 5, &[5, 11, 12]);
}

/// At both ends of every class, with each letter and each kind of limit.
#[test]
fn classes_and_volts() {
    let mut t = Tally::new("evaluate_line, classes");
    let ends = [(100, 'A'), (139, 'A'), (140, 'B'), (259, 'B'), (260, 'C'), (519, 'C'), (520, 'D'), (1_000, 'D')];
    for ((volts, class), letter) in ends.into_iter().flat_map(|end| ['A', 'B', 'C', 'D', 'E', 'a'].map(|l| (end, l))) {
        for (limit, fault) in [("0+800", 0), ("1/0", 12), ("", 11), ("0-1", 5)] {
            for (tag, end) in [("GP1", ""), ("GP2", ",2000,500")] {
                let with =
                    |limit| format!("{tag},XA,{letter},12,{volts},50,1150,100,{limit},1500,1500,100,-2500,100{end}\n");
                let (line, due) = (with("800"), if letter == class { fault } else { 5 });
                demand(&mut t, with(limit).as_bytes(), if due == 0 { Ok(line.as_bytes()) } else { Err(due) });
            }
        }
    }
    for volts in ["99", "1001", "0230", "+230", "N", "", "200+30", "-230"] {
        let line = format!("GP1,XA,B,12,{volts},50,N,100,1/0,1500,1500,100,-2500,100\n");
        demand(&mut t, line.as_bytes(), Err(5));
    }
    t.finish(8 * 6 * 4 * 2 + 8, &[0, 5, 11, 12]);
}

/// Lines with formulas, each of whose bytes is exchanged by every other, and put in before each; and cut after each.
#[test]
fn every_byte() {
    let (mut t, mut rng) = (Tally::new("evaluate_line, every byte of a line"), Rng::new(0x6672_616D));
    let listed = LISTED[..4].iter().map(|(_, input, _)| input.as_bytes().to_vec());
    for line in listed.chain((0..4).map(|_| joined(&good(&mut rng)))) {
        for at in 0..line.len() {
            for byte in 0..=255 {
                compare(&mut t, &[&line[..at], &[byte], &line[at + 1..]].concat(), LONGEST);
                compare(&mut t, &[&line[..at], &[byte], &line[at..]].concat(), LONGEST);
            }
            compare(&mut t, &[&line[..at], &line[at + 1..]].concat(), LONGEST);
            demand(&mut t, &line[..at], Err(5));
        }
    }
    t.finish(8 * 50 * 514, &[0, 5, 11, 12]);
}
