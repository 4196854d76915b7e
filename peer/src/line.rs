//! Profiles, their lines, and the image of 76 bytes that C holds.

use crate::refusal::{demand, Refusal, BAD_PROFILE, BAD_SIZE};
use crate::table::Table;
use std::ops::RangeInclusive;

/// The shortest line, which has no rate point, and the longest, which has one.
pub const SHORTEST: usize = 42;
pub const LONGEST: usize = 84;

/// Bytes of an image.
pub const IMAGE: usize = 76;

/// Where the volts and the hertz stand in an image, four bytes each, and the rate point.
pub const VOLTS: usize = 8;
pub const HERTZ: usize = 12;
pub const RATE: usize = 64;

/// What a trip point's limit is measured in.
#[derive(Clone, Copy, PartialEq, Eq, Debug, PartialOrd, Ord)]
pub enum Kind {
    /// Thousandths of the nominal voltage.
    Share,
    /// Millihertz above the nominal frequency.
    Above,
    /// Millihertz below the nominal frequency.
    Below,
}

#[derive(Clone, Copy, PartialEq, Eq, Debug, PartialOrd, Ord)]
pub struct Trip {
    pub kind: Kind,
    pub limit: u32,
    pub delay: u32,
}

/// A trip point for the rate of change of frequency, in millihertz per second.
#[derive(Clone, Copy, PartialEq, Eq, Debug, PartialOrd, Ord)]
pub struct Rate {
    pub limit: u32,
    pub delay: u32,
}

/// Any profile, also one that breaks a rule.
#[derive(Clone, Copy, PartialEq, Eq, Debug, PartialOrd, Ord)]
pub struct Profile {
    pub country: [u8; 2],
    pub class: u8,
    pub serial: u32,
    pub volts: u32,
    pub hertz: u32,
    /// Over-voltage, under-voltage, over-frequency, under-frequency.
    pub trips: [Trip; 4],
    /// A line with this point is a `GP2` line, one without it a `GP1` line.
    pub rate: Option<Rate>,
}

/// The hertz that a grid has.
pub const NOMINAL_HERTZ: [u32; 2] = [50, 60];

pub const DELAYS: RangeInclusive<u32> = 20..=60_000;

/// Kind and limits of each trip point, in the order of the line.
pub const TRIPS: [(Kind, RangeInclusive<u32>); 4] =
    [(Kind::Share, 1_001..=1_500), (Kind::Share, 1..=999), (Kind::Above, 1..=5_000), (Kind::Below, 1..=5_000)];

/// Limits of a rate point.
pub const RATES: RangeInclusive<u32> = 100..=10_000;

pub fn is_country(country: &[u8]) -> bool {
    country.len() == 2 && country.iter().all(u8::is_ascii_uppercase)
}

impl Trip {
    fn obeys(&self, rule: &(Kind, RangeInclusive<u32>)) -> bool {
        self.kind == rule.0 && rule.1.contains(&self.limit) && DELAYS.contains(&self.delay)
    }
}

impl Rate {
    fn is_valid(&self) -> bool {
        RATES.contains(&self.limit) && DELAYS.contains(&self.delay)
    }
}

impl Profile {
    /// Whether it breaks no rule under this table.
    pub fn is_valid(&self, table: &Table) -> bool {
        is_country(&self.country)
            && self.serial >= 1
            && table.class_of(self.volts) == Some(self.class)
            && NOMINAL_HERTZ.contains(&self.hertz)
            && self.trips.iter().zip(&TRIPS).all(|(trip, rule)| trip.obeys(rule))
            && self.rate.iter().all(Rate::is_valid)
    }

    /// The line, as the rules write it; for a profile that breaks none of them it is the one that means it.
    fn line(&self) -> String {
        let Profile { country: [a, b], class, serial, volts, hertz, trips, rate } = *self;
        let tag = if rate.is_some() { "GP2" } else { "GP1" };
        let head = format!("{tag},{}{},{},{serial},{volts},{hertz}", char::from(a), char::from(b), char::from(class));
        let sign = |kind| if kind == Kind::Below { "-" } else { "" };
        let tail: String = trips.iter().map(|t| format!(",{}{},{}", sign(t.kind), t.limit, t.delay)).collect();
        let end = rate.map_or(String::new(), |r| format!(",{},{}", r.limit, r.delay));
        head + &tail + &end + "\n"
    }
}

/// A number without sign and leading zero. What does not fit is out of every range.
pub fn number(field: &str) -> Option<u32> {
    let plain = field.bytes().all(|byte| byte.is_ascii_digit()) && (field == "0" || !field.starts_with('0'));
    if plain {
        field.parse().ok()
    } else {
        None
    }
}

fn parsed(line: &[u8]) -> Option<Profile> {
    let text = std::str::from_utf8(line).ok()?.strip_suffix('\n')?;
    let fields: Vec<&str> = text.split(',').collect();
    let [tag, country, class, serial, volts, hertz, ref rest @ ..] = fields[..] else { return None };
    let rate = match (tag, rest.len()) {
        ("GP1", 8) => None,
        ("GP2", 10) => Some(Rate { limit: number(rest[8])?, delay: number(rest[9])? }),
        _ => return None,
    };
    if class.len() != 1 {
        return None;
    }
    let mut trips = [Trip { kind: Kind::Share, limit: 0, delay: 0 }; 4];
    for (at, trip) in trips.iter_mut().enumerate() {
        let (kind, limit) = (TRIPS[at].0, rest[2 * at]);
        let limit = if kind == Kind::Below { limit.strip_prefix('-')? } else { limit };
        *trip = Trip { kind, limit: number(limit)?, delay: number(rest[2 * at + 1])? };
    }
    let (serial, volts, hertz) = (number(serial)?, number(volts)?, number(hertz)?);
    let country = country.as_bytes().try_into().ok()?;
    Some(Profile { country, class: class.as_bytes()[0], serial, volts, hertz, trips, rate })
}

/// Reads a line under a table: 1 where its length is none of a line, 5 where it breaks a rule.
pub fn read_line(table: &Table, line: &[u8]) -> Result<Profile, Refusal> {
    demand((SHORTEST..=LONGEST).contains(&line.len()), BAD_SIZE)?;
    parsed(line).filter(|profile| profile.is_valid(table)).ok_or(BAD_PROFILE)
}

/// Writes a profile's line: 5 where the profile breaks a rule under the table.
pub fn write_line(table: &Table, profile: &Profile) -> Result<Vec<u8>, Refusal> {
    demand(profile.is_valid(table), BAD_PROFILE)?;
    Ok(profile.line().into_bytes())
}

/// The profile that an image means: used (not looked at), country, class, then numbers of four bytes. A rate point's
/// first number says whether it is there; where it is not, the other two are not looked at.
pub fn meaning(image: &[u8; IMAGE]) -> Profile {
    let word = |at: usize| u32::from_le_bytes(image[at..at + 4].try_into().expect("four bytes"));
    let kind = |number: u32| match number {
        0 => Kind::Share,
        1 => Kind::Above,
        _ => Kind::Below,
    };
    let trip = |at: usize| Trip { kind: kind(word(at)), limit: word(at + 4), delay: word(at + 8) };
    Profile {
        country: [image[1], image[2]],
        class: image[3],
        serial: word(4),
        volts: word(VOLTS),
        hertz: word(HERTZ),
        trips: [trip(16), trip(28), trip(40), trip(52)],
        rate: (word(RATE) != 0).then(|| Rate { limit: word(RATE + 4), delay: word(RATE + 8) }),
    }
}

/// The image of a profile that is used.
pub fn image(p: &Profile) -> [u8; IMAGE] {
    let mut words = vec![p.serial, p.volts, p.hertz];
    p.trips.iter().for_each(|t| words.extend([t.kind as u32, t.limit, t.delay]));
    words.extend(p.rate.map_or([0; 3], |r| [1, r.limit, r.delay]));
    let mut bytes = vec![1, p.country[0], p.country[1], p.class];
    words.into_iter().for_each(|word| bytes.extend(word.to_le_bytes()));
    bytes.try_into().expect("4 bytes and 18 numbers")
}

pub mod cases;
#[cfg(test)]
mod tests;
