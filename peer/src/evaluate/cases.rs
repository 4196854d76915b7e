//! Lines to evaluate: written by hand, and random ones.

mod listed;

pub use listed::{LISTED, PLAIN};

use super::*;
use crate::formula::cases::{aimed, any as any_formula, failing, missed, noise, of_length};
use crate::formula::LONGEST as LONGEST_FORMULA;
use crate::line::cases::{fields as plain_fields, texts, valid};
use crate::line::Profile;
use crate::rng::Rng;
use std::ops::RangeInclusive;

/// What each limit may be, in the order of `LIMITS`.
pub const RANGES: [RangeInclusive<i64>; 5] = [1_001..=1_500, 1..=999, 1..=5_000, -5_000..=-1, 100..=10_000];

/// A limit of a plain line: the line, the limit's field, and its range.
pub type Place = (&'static str, usize, RangeInclusive<i64>);

/// Each limit of each plain line: four of the first, and five of the second.
pub fn places() -> Vec<Place> {
    let limits = || LIMITS.into_iter().zip(RANGES).map(|((at, _), range)| (at, range));
    let of_line = |line: &'static str| limits().map(move |(at, range)| (line, at, range));
    PLAIN.into_iter().flat_map(of_line).filter(|(line, at, _)| *at < line.split(',').count()).collect()
}

pub fn joined(fields: &[Vec<u8>]) -> Vec<u8> {
    [fields.join(&b','), b"\n".to_vec()].concat()
}

/// The line with another text in a field.
pub fn with_field(line: &str, at: usize, text: &[u8]) -> Vec<u8> {
    let mut all: Vec<Vec<u8>> = line.trim_end().split(',').map(|field| field.as_bytes().to_vec()).collect();
    all[at] = text.to_vec();
    joined(&all)
}

/// Which fields of a line are limits.
fn limits_of(fields: &[Vec<u8>]) -> Vec<usize> {
    LIMITS.iter().map(|(at, _)| *at).filter(|at| *at < fields.len()).collect()
}

/// The number that a plain limit is.
fn number_of(field: &str) -> i64 {
    field.parse().expect("a plain limit")
}

/// The fields of some valid line. Mostly its limits are formulas that give its numbers, and some stay as they are.
pub fn good(rng: &mut Rng) -> Vec<Vec<u8>> {
    let profile = valid(rng);
    good_of(rng, &profile)
}

/// The same of this profile's line, which may break a rule.
pub fn good_of(rng: &mut Rng, profile: &Profile) -> Vec<Vec<u8>> {
    let (mut all, plain) = (plain_fields(profile), rng.below(4));
    for (at, _) in LIMITS {
        if let Some(field) = all.get_mut(at).filter(|_| rng.below(4) >= plain) {
            *field = aimed(rng, profile.volts, number_of(field));
        }
    }
    all.into_iter().map(String::into_bytes).collect()
}

/// Puts another formula, one that fails, a near miss or noise in place of a limit.
fn spoil(rng: &mut Rng, all: &mut [Vec<u8>]) {
    let limits = limits_of(all);
    let limit = &mut all[limits[rng.below(limits.len())]];
    *limit = match rng.below(5) {
        0 | 1 => any_formula(rng).into_bytes(),
        2 => failing(rng).into_bytes(),
        3 => missed(rng, limit),
        _ => noise(rng),
    };
}

/// Brings a field other than a limit to an end of its range, beside it, or to another spelling.
fn spoil_frame(rng: &mut Rng, all: &mut [Vec<u8>]) {
    let others: Vec<usize> = (0..all.len()).filter(|at| !limits_of(all).contains(at)).collect();
    let at = others[rng.below(others.len())];
    let choice = texts(at);
    all[at] = choice[rng.below(choice.len())].clone().into_bytes();
}

/// A line with another end, cut, or with an LF or CR in it.
fn ended(rng: &mut Rng, mut line: Vec<u8>) -> Vec<u8> {
    let at = rng.below(line.len() + 1);
    match rng.below(8) {
        0 => line.truncate(at),
        1 => drop(line.pop()),
        2 => line.push(b'\n'),
        3 => line.insert(line.len() - 1, b'\r'),
        4 => line.push(rng.below(256) as u8),
        5 => line.extend(noise(rng)),
        6 => line.insert(at, b'\n'),
        _ => line.insert(at, b'\r'),
    }
    line
}

/// The line with the longest limits that it may have, and a limit that is too long, mostly: the whole has about as many
/// bytes as it may.
fn lengthy(rng: &mut Rng, profile: &Profile) -> Vec<u8> {
    let mut all = plain_fields(profile);
    for (at, _) in LIMITS {
        if let Some(field) = all.get_mut(at) {
            *field = of_length(number_of(field), LONGEST_FORMULA - usize::from(rng.below(8) == 0));
        }
    }
    let (at, len) = (LIMITS[rng.below(4)].0, LONGEST_INPUT - 2 + rng.below(5));
    let mut all: Vec<Vec<u8>> = all.into_iter().map(String::into_bytes).collect();
    if rng.below(4) > 0 {
        let more = len.saturating_sub(joined(&all).len());
        all[at].extend(b"-0".iter().cycle().take(more));
    }
    joined(&all)
}

/// Any input: one that is good; with one limit or two of another kind; with another field that is at a boundary; with
/// one byte other; with another end; as long as it may be; or noise.
pub fn any(rng: &mut Rng) -> Vec<u8> {
    let profile = valid(rng);
    any_of(rng, &profile)
}

/// The same of this profile's line.
pub fn any_of(rng: &mut Rng, profile: &Profile) -> Vec<u8> {
    let mut all = good_of(rng, profile);
    match rng.below(20) {
        0..=6 => (),
        7..=10 => spoil(rng, &mut all),
        11 | 12 => (0..2).for_each(|_| spoil(rng, &mut all)),
        13 => spoil_frame(rng, &mut all),
        14 => {
            spoil_frame(rng, &mut all);
            spoil(rng, &mut all);
        }
        15 | 16 => return missed(rng, &joined(&all)),
        17 => return ended(rng, joined(&all)),
        18 => return lengthy(rng, profile),
        _ => return [noise(rng), noise(rng), noise(rng)].join(&b','),
    }
    joined(&all)
}
