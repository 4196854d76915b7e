//! Profiles and lines to compare on.

use super::*;
use crate::rng::Rng;
use crate::table::BUILT_IN;

/// What an entry answers that writes a line into lent bytes, and the line: past it, and after a refusal, bytes and
/// length are as they were.
pub fn handed_out(entry: impl FnOnce(&mut [u8], usize) -> (Refusal, usize)) -> Result<Vec<u8>, Refusal> {
    let mut out = [7; LONGEST];
    let (answer, length) = entry(&mut out, 99);
    if answer != 0 {
        assert_eq!((length, out), (99, [7; LONGEST]));
        return Err(answer);
    }
    assert!(out[length..].iter().all(|&byte| byte == 7));
    Ok(out[..length].to_vec())
}

/// A number in the range, often at its ends.
fn within(rng: &mut Rng, range: &RangeInclusive<u32>) -> u32 {
    let (low, high) = (*range.start(), *range.end());
    match rng.below(4) {
        0 => low,
        1 => high,
        _ => low + (rng.word() % (u64::from(high - low) + 1)) as u32,
    }
}

/// Some valid rate point.
pub fn some_rate(rng: &mut Rng) -> Rate {
    Rate { limit: within(rng, &RATES), delay: within(rng, &DELAYS) }
}

/// Some profile that is valid under the built-in classes, in one of two with a rate point.
pub fn valid(rng: &mut Rng) -> Profile {
    valid_under(rng, &BUILT_IN)
}

/// The same under any sound table.
pub fn valid_under(rng: &mut Rng, table: &Table) -> Profile {
    let row = table.rows()[rng.below(table.rows().len())];
    let volts = within(rng, &(row.low..=row.high));
    let mut letter = || b'A' + within(rng, &(0..=25)) as u8;
    let country = [letter(), letter()];
    Profile {
        country,
        class: table.class_of(volts).expect("a sound row"),
        serial: within(rng, &(1..=u32::MAX)),
        volts,
        hertz: NOMINAL_HERTZ[rng.below(2)],
        trips: TRIPS.map(|(kind, limits)| Trip { kind, limit: within(rng, &limits), delay: within(rng, &DELAYS) }),
        rate: (rng.below(2) == 0).then(|| some_rate(rng)),
    }
}

/// Every number of a profile.
fn numbers(p: &mut Profile) -> Vec<&mut u32> {
    let trips = p.trips.iter_mut().flat_map(|trip| [&mut trip.limit, &mut trip.delay]);
    let rate = p.rate.iter_mut().flat_map(|rate| [&mut rate.limit, &mut rate.delay]);
    [&mut p.serial, &mut p.volts, &mut p.hertz].into_iter().chain(trips).chain(rate).collect()
}

/// The same with one of its numbers a digit longer, where that breaks no rule.
fn longer(profile: &Profile, at: usize) -> Option<Profile> {
    let mut next = *profile;
    let number = numbers(&mut next).swap_remove(at);
    *number = number.checked_mul(10)?;
    next.class = BUILT_IN.class_of(next.volts)?;
    next.is_valid(&BUILT_IN).then_some(next)
}

/// Valid profiles with a rate point or without: the first has the shortest line, each other one that is a byte longer,
/// and the last the longest.
pub fn by_length(with_rate: bool) -> Vec<Profile> {
    let trips = TRIPS.map(|(kind, limits)| Trip { kind, limit: *limits.start(), delay: *DELAYS.start() });
    let rate = with_rate.then_some(Rate { limit: *RATES.start(), delay: *DELAYS.start() });
    let mut last = Profile { country: *b"AA", class: b'A', serial: 1, volts: 100, hertz: 50, trips, rate };
    let mut all = vec![last];
    for at in 0..numbers(&mut last).len() {
        while let Some(next) = longer(&last, at) {
            last = next;
            all.push(last);
        }
    }
    all
}

/// The fields of a profile's line: 14, and two more for a rate point.
pub fn fields(profile: &Profile) -> Vec<String> {
    profile.line().trim_end().split(',').map(str::to_string).collect()
}

pub fn joined(fields: &[String]) -> Vec<u8> {
    (fields.join(",") + "\n").into_bytes()
}

/// The ends of a field's range and what stands beside them, written plainly and not.
pub fn texts(field: usize) -> Vec<String> {
    let numbers: Vec<i64> = match field {
        3 => vec![0, 1, 2, 4_294_967_295, 4_294_967_296, 99_999_999_999, 18_446_744_073_709],
        4 => vec![0, 99, 100, 139, 140, 259, 260, 519, 520, 1_000, 1_001, 4_294_967_396],
        5 => vec![0, 49, 50, 51, 59, 60, 61, 500],
        6 => vec![1_000, 1_001, 1_500, 1_501],
        8 => vec![0, 1, 999, 1_000],
        10 => vec![0, 1, 5_000, 5_001],
        12 => vec![-5_001, -5_000, -1, 0, 1],
        14 => vec![0, 99, 100, 10_000, 10_001, 4_294_967_295, 4_294_967_296, 4_294_967_396],
        7 | 9 | 11 | 13 | 15 => vec![0, 19, 20, 60_000, 60_001, 4_294_967_316],
        _ => Vec::new(),
    };
    let words: &[&str] = match field {
        0 => &["GP1", "GP2", "GP0", "GP3", "gp1", "gp2", "GP", "GP11", "GP22", " GP1", " GP2", "", "\u{feff}GP1"],
        1 => &["AA", "AZ", "ZA", "ZZ", "@A", "A@", "[A", "A[", "aA", "Az", "A", "AAA", "", "\u{e9}"],
        2 => &["A", "B", "C", "D", "@", "E", "a", "AA", ""],
        _ => &["", "-", "+", "x", " ", "-0", "00", "0x10", "1e3", "1.0", "\"50\"", "٣"],
    };
    let spelt = numbers.iter().flat_map(|n| {
        let size = n.abs();
        [
            n.to_string(),
            format!("+{n}"),
            format!("-{size}"),
            format!("{size}"),
            format!("0{size}"),
            format!("-0{size}"),
            format!("{n} "),
        ]
    });
    spelt.chain(words.iter().map(|word| word.to_string())).collect()
}

/// Numbers that are no hertz of a grid: beside 50 and 60, between them, and with 50 or 60 in some of their bytes alone.
pub const NO_HERTZ: [u32; 15] = [
    0,
    16,
    49,
    51,
    55,
    59,
    61,
    50 + 256,
    60 + 256,
    50 + 65_536,
    60 + 65_536,
    50 + (1 << 24),
    60 + (1 << 24),
    50 << 24,
    u32::MAX,
];

/// The one of both hertz that these are not.
pub fn other_hertz(hertz: u32) -> u32 {
    NOMINAL_HERTZ.into_iter().find(|&other| other != hertz).expect("one of two")
}

/// Numbers that stand for the presence of a rate point: only 0 says that it is absent.
pub const PRESENCES: [u32; 8] = [0, 1, 2, 255, 256, 65_536, 16_777_216, u32::MAX];

/// Any image: a valid one, one with a number changed to one near a boundary, or noise.
pub fn any_image(rng: &mut Rng) -> [u8; IMAGE] {
    let mut bytes = image(&valid(rng));
    match rng.below(7) {
        0 => (),
        1 => rng.fill(&mut bytes),
        2 => bytes[rng.below(IMAGE)] = rng.below(256) as u8,
        3 => bytes[rng.below(4)] = rng.below(256) as u8,
        4 => bytes[RATE..RATE + 4].copy_from_slice(&PRESENCES[rng.below(PRESENCES.len())].to_le_bytes()),
        _ => {
            let near = [
                0, 1, 2, 3, 19, 20, 49, 50, 60, 99, 100, 999, 1_000, 1_001, 1_500, 1_501, 5_000, 5_001, 10_000, 60_000,
            ];
            let (at, number) = (4 + 4 * rng.below(IMAGE / 4 - 1), near[rng.below(near.len())] + rng.below(2) as u32);
            bytes[at..at + 4].copy_from_slice(&number.to_le_bytes());
        }
    }
    bytes
}
