//! The listing of what a device would hold after the lines of an input.

use crate::line::{read_line, Profile};
use crate::refusal::{answer_length, demand, BAD_SIZE};
use crate::store::{Device, Store, CAPACITY};
use crate::table::Table;

pub const HEADER: &str = "COUNTRY,CLASS,HERTZ,SERIAL\n";
pub const TOO_LONG: &str = "too long\n";

/// The longest input that is looked at.
pub const LONGEST_INPUT: usize = 65_536;

/// The header and a row of at most 19 bytes for each profile.
pub const LISTING: usize = HEADER.len() + 19 * CAPACITY;

fn row(profile: &Profile) -> String {
    let Profile { country: [a, b], class, hertz, serial, .. } = *profile;
    format!("{}{},{},{hertz},{serial}\n", char::from(a), char::from(b), char::from(class))
}

/// The order of the rows, the least first: country (first letter, then second), class, hertz. No two stored profiles
/// have the same, and so the serial does not count.
fn place(profile: &Profile) -> ([u8; 2], u8, u32) {
    (profile.country, profile.class, profile.hertz)
}

/// What the lines of an input leave stored under a table: refused lines and an unfinished last one are skipped.
fn stored(table: &Table, input: &[u8]) -> Store {
    let mut store = Store::default();
    for piece in input.split_inclusive(|&byte| byte == b'\n').filter(|piece| piece.ends_with(b"\n")) {
        if let Ok(profile) = read_line(table, piece) {
            let _ = store.put(profile, &Device::of(&profile)); // one that is refused changes nothing
        }
    }
    store
}

/// The header, then the rows of these profiles as they stand.
fn rows_of(profiles: &[Profile]) -> String {
    HEADER.to_string() + &profiles.iter().map(row).collect::<String>()
}

pub fn listing(table: &Table, input: &[u8]) -> String {
    if input.len() > LONGEST_INPUT {
        return TOO_LONG.to_string();
    }
    let mut profiles = stored(table, input).profiles().to_vec();
    profiles.sort_by_key(place);
    rows_of(&profiles)
}

/// Writes the listing under a table's image at the front of the lent bytes; the length comes back, or as it was.
pub fn preview(table: &[u8], input: &[u8], out: &mut [u8], length: usize) -> (u8, usize) {
    let make = || {
        let table = Table::lent(table)?;
        demand(out.len() == LISTING, BAD_SIZE)?;
        Ok(listing(&table, input).into_bytes())
    };
    answer_length(make(), out, length)
}

pub mod cases;
#[cfg(test)]
mod tests;
