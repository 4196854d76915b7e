//! Inputs for the preview.

mod listed;

pub use listed::{
    BOTH_HERTZ, BOTH_KINDS, EXAMPLE, EXAMPLE_LISTED, LISTED, SIXTEEN, SIXTEEN_LISTED, TWO_CLASSES, USUAL,
};

use super::*;
use crate::line::cases::{by_length, fields, joined, valid, valid_under};
use crate::line::{write_line, Profile, NOMINAL_HERTZ};
use crate::rng::Rng;
use crate::table::cases::some_profile;
use crate::table::BUILT_IN;
use listed::AFTER_SIXTEEN;

pub fn written(profile: &Profile) -> String {
    String::from_utf8(write_line(&BUILT_IN, profile).expect("valid")).expect("letters and digits")
}

/// The profile for one of a few countries, with a small serial, so that triples come again. Nine countries differ in
/// both letters.
fn brought(rng: &mut Rng, countries: usize, profile: fn(&mut Rng, &Table) -> Profile, table: &Table) -> Profile {
    let at = rng.below(countries) as u8;
    let country = [b'X' + at / 3, b'A' + at % 3];
    Profile { country, serial: 1 + rng.below(9) as u32, ..profile(rng, table) }
}

/// A valid line of one of these countries.
pub fn line(rng: &mut Rng, countries: usize) -> String {
    written(&brought(rng, countries, valid_under, &BUILT_IN))
}

fn lines(rng: &mut Rng, count: usize, countries: usize) -> String {
    (0..count).map(|_| line(rng, countries)).collect()
}

fn reversed(lines: &str) -> String {
    lines.lines().rev().map(|line| line.to_string() + "\n").collect()
}

/// The lines in some other order.
pub fn shuffled(rng: &mut Rng, lines: &str) -> String {
    let mut all: Vec<&str> = lines.split_inclusive('\n').collect();
    for at in (1..all.len()).rev() {
        all.swap(at, rng.below(at + 1));
    }
    all.concat()
}

/// Lines with one more among them, at each place.
fn with_one_more<'a>(lines: &[&'a str], more: &'a str) -> Vec<Vec<&'a str>> {
    (0..=lines.len()).map(|at| [&lines[..at], &[more], &lines[at..]].concat()).collect()
}

/// The lines in every order.
pub fn permutations(lines: &str) -> Vec<String> {
    let mut all = vec![Vec::new()];
    for line in lines.split_inclusive('\n') {
        all = all.iter().flat_map(|order| with_one_more(order, line)).collect();
    }
    all.iter().map(|order| order.concat()).collect()
}

/// One of the 32 triples of four countries, which differ in both letters.
fn one_of_32(rng: &mut Rng, at: usize) -> Profile {
    let country = [b'A' + (at / 16) as u8, b'A' + (at / 8 % 2) as u8];
    let volts = [120, 230, 400, 690][at / 2 % 4];
    let class = BUILT_IN.class_of(volts).expect("100 to 1000");
    Profile { country, class, volts, hertz: NOMINAL_HERTZ[at % 2], ..valid(rng) }
}

/// Lines of 16 of these triples, in any order.
pub fn different_triples(rng: &mut Rng) -> String {
    let all: String = (0..32).map(|at| written(&one_of_32(rng, at))).collect();
    shuffled(rng, &all).split_inclusive('\n').take(16).collect()
}

/// 16 are stored in descending order; of what comes then, one newer profile is.
pub fn sixteen_and_more() -> String {
    SIXTEEN.to_string() + AFTER_SIXTEEN
}

fn country(at: u8) -> [u8; 2] {
    [b'A' + at / 26, b'A' + at % 26]
}

/// `count` triples, each of a country of its own.
fn triples(rng: &mut Rng, count: u8) -> String {
    (0..count).map(|at| written(&Profile { country: country(at), ..valid(rng) })).collect()
}

/// `count` triples whose rows have the greatest length, two of each country: its one class at both hertz.
pub fn longest_rows(rng: &mut Rng, count: u8) -> String {
    let base = Profile { serial: u32::MAX, ..valid(rng) };
    let at_both = |at: u8| Profile { country: country(at / 2), hertz: NOMINAL_HERTZ[usize::from(at % 2)], ..base };
    (0..count).map(|at| written(&at_both(at))).collect()
}

/// 16 triples at 50 hertz; then for the first country the other hertz, for which there is no room, and a newer profile,
/// for which there is.
fn one_hertz_too_many(rng: &mut Rng) -> String {
    let base = Profile { hertz: 50, serial: 1, ..valid(rng) };
    let full: Vec<Profile> = (0..16).map(|at| Profile { country: country(at), ..base }).collect();
    let late = [Profile { hertz: 60, serial: 9, ..full[0] }, Profile { serial: 2, ..full[0] }];
    full.iter().chain(&late).map(written).collect()
}

/// The longest line of each kind, and for another country the same with a digit more, which is refused.
fn longest() -> String {
    let mut all = String::new();
    for (with_rate, [one, other]) in [(false, [*b"XA", *b"XB"]), (true, [*b"XC", *b"XD"])] {
        let last = *by_length(with_rate).last().expect("a profile");
        all += &written(&Profile { country: one, ..last });
        all += &written(&Profile { country: other, ..last }).replace('\n', "0\n");
    }
    all
}

/// Lines up to just `len` bytes: valid ones, then one that is refused.
fn exactly(rng: &mut Rng, len: usize) -> Vec<u8> {
    let mut input = String::new();
    while input.len() + 160 < len {
        input += &line(rng, 3);
    }
    let fill = len - input.len() - 1;
    input += &"x".repeat(fill);
    (input + "\n").into_bytes()
}

/// Inputs that each mean something of their own, with a name.
pub fn named(rng: &mut Rng) -> Vec<(&'static str, Vec<u8>)> {
    let good = lines(rng, 3, 2);
    let text = |text: &str| text.as_bytes().to_vec();
    // The last line has a greater serial than all before it, so that its last byte changes the listing.
    let mut last_line_ends = exactly(rng, LONGEST_INPUT);
    let last = format!("\n{USUAL}");
    last_line_ends.splice(LONGEST_INPUT - last.len().., text(&last));
    let mut all: Vec<_> = LISTED.iter().map(|(name, input, _)| (*name, text(input))).collect();
    all.extend([
        ("both kinds the other way round", text(&reversed(BOTH_KINDS))),
        ("both hertz the other way round", text(&reversed(BOTH_HERTZ))),
        ("16 profiles in ascending order", text(&reversed(SIXTEEN))),
        ("16 profiles in any order", text(&shuffled(rng, SIXTEEN))),
        ("16 profiles in descending order, then others", text(&sixteen_and_more())),
        ("the longest lines, and longer ones", text(&longest())),
        ("nothing", Vec::new()),
        ("no LF", text("GP1,XA,B,12")),
        ("one line without its LF", text(good.lines().next().expect("three"))),
        ("only LFs", vec![b'\n'; 200]),
        ("CR LF", text(&good.replace('\n', "\r\n"))),
        ("refused lines between good ones", text(&good.replace('\n', "\nGP1,bad\n\n"))),
        ("an unfinished last line", text(&good[..good.len() - 1])),
        ("an unfinished last line of another triple", text(&(good.clone() + EXAMPLE.trim_end()))),
        ("16 triples", text(&triples(rng, 16))),
        ("17 triples", text(&triples(rng, 17))),
        ("40 triples, then the first again", text(&(triples(rng, 40) + &triples(rng, 16)))),
        ("16 rows of the greatest length", text(&longest_rows(rng, 16))),
        ("17 rows of the greatest length", text(&longest_rows(rng, 17))),
        ("a 17th triple that is the other hertz of the first", text(&one_hertz_too_many(rng))),
        ("replaced serials", text(&lines(rng, 200, 2))),
        ("the same lines twice", text(&EXAMPLE.repeat(2))),
        ("the lines the other way round", text(&reversed(EXAMPLE))),
        ("NUL bytes", vec![0; 300]),
        ("NUL bytes between lines", text(&good.replace('\n', "\n\0\n"))),
        ("NUL bytes after lines", text(&good.replace('\n', "\0\n"))),
        ("no text", rng.bytes(5_000)),
        ("a line too long for any, then good ones", text(&("x".repeat(3_000) + "\n" + &good))),
        ("just not too long", exactly(rng, LONGEST_INPUT)),
        ("just not too long, the last line good", last_line_ends),
        ("just too long", exactly(rng, LONGEST_INPUT + 1)),
        ("much too long", exactly(rng, 3 * LONGEST_INPUT)),
        ("too long without LF", vec![b'x'; LONGEST_INPUT + 1]),
    ]);
    all
}

/// Lines of a few countries, some of them damaged.
pub fn any(rng: &mut Rng) -> Vec<u8> {
    let (count, countries) = (rng.below(60), 1 + rng.below(9));
    let input = lines(rng, count, countries).into_bytes();
    damaged(rng, input)
}

/// The same under any table: a part of the lines breaks its rules of class and volts.
pub fn any_under(rng: &mut Rng, table: &Table) -> Vec<u8> {
    let (count, countries) = (rng.below(60), 1 + rng.below(9));
    let lines = (0..count).flat_map(|_| joined(&fields(&brought(rng, countries, some_profile, table))));
    let input = lines.collect();
    damaged(rng, input)
}

/// Up to three bytes changed, and one of two cut near its end.
fn damaged(rng: &mut Rng, mut input: Vec<u8>) -> Vec<u8> {
    for _ in 0..rng.below(4) {
        if !input.is_empty() {
            let at = rng.below(input.len());
            input[at] = [b'\n', b'0', b'A', rng.below(256) as u8][rng.below(4)];
        }
    }
    let keep = input.len() - rng.below(2) * rng.below(input.len().min(30) + 1);
    input.truncate(keep);
    input
}
