//! The stored profile that is nearest to measured volts.

use super::{write_found, Store};
use crate::line::{is_country, Profile, NOMINAL_HERTZ};
use crate::refusal::{demand, Refusal, BAD_DEVICE, NOT_STORED};

/// The most volts that may be measured.
pub const MEASURED_MAX: u32 = 2_000;

/// How far a profile may be from the measured volts.
pub const REACH: u32 = 40;

/// What a fitter knows: a country, its hertz, and the volts that were measured. It may be anything.
#[derive(Clone, Copy, Debug)]
pub struct Measured<'a> {
    pub country: &'a [u8],
    pub hertz: u32,
    pub volts: u32,
}

impl Measured<'_> {
    fn exists(&self) -> Result<(), Refusal> {
        let is_network = is_country(self.country) && NOMINAL_HERTZ.contains(&self.hertz);
        demand(is_network && self.volts <= MEASURED_MAX, BAD_DEVICE)
    }

    fn distance(&self, profile: &Profile) -> u32 {
        profile.volts.abs_diff(self.volts)
    }

    /// Of this country and these hertz, and in reach. The class does not count.
    fn fits(&self, profile: &Profile) -> bool {
        profile.country == self.country && profile.hertz == self.hertz && self.distance(profile) <= REACH
    }
}

/// Of profiles that are equally far, the one for which this is least: the lower volts win.
fn among_equals(profile: &Profile) -> u32 {
    profile.volts
}

impl Store {
    /// Where several stand alike, the first slot counts.
    pub fn nearest(&self, measured: &Measured) -> Result<Profile, Refusal> {
        measured.exists()?;
        let near = self.profiles.iter().filter(|profile| measured.fits(profile));
        near.min_by_key(|profile| (measured.distance(profile), among_equals(profile))).copied().ok_or(NOT_STORED)
    }
}

/// Writes the line of the nearest profile.
pub fn nearest(image: &[u8], measured: &Measured, line: &mut [u8], length: usize) -> (u8, usize) {
    write_found(image, measured.exists(), |store| store.nearest(measured), line, length)
}

#[cfg(test)]
mod tests;
