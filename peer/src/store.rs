//! The profiles that a device holds, packages, and the loader.

mod nearest;

pub use nearest::{nearest, Measured, MEASURED_MAX, REACH};

use crate::line::{
    image, is_country, meaning, read_line, write_line, Profile, HERTZ, IMAGE, LONGEST, NOMINAL_HERTZ, SHORTEST,
};
use crate::refusal::{
    answer, answer_length, demand, Refusal, BAD_DEVICE, BAD_SIZE, NOT_STORED, OLD_SERIAL, OTHER_DEVICE, STORE_FULL,
    STORE_IN_USE,
};
use crate::scheme;
use crate::sizes::Sizes;
use crate::table::{read_table, Table, TABLE};
use std::ops::RangeInclusive;

/// Profiles that a store holds at most.
pub const CAPACITY: usize = 16;

/// Bytes of a store's slots.
pub const SLOTS: usize = CAPACITY * IMAGE;

/// Bytes of a store's image: the slots, and then the image of its table.
pub const STORE: usize = SLOTS + TABLE;

/// What a device is set to. It may be anything.
#[derive(Clone, Copy, Debug)]
pub struct Device<'a> {
    pub country: &'a [u8],
    pub class: u32,
    pub hertz: u32,
}

impl<'a> Device<'a> {
    /// The device that a profile is for.
    pub fn of(profile: &'a Profile) -> Device<'a> {
        Device { country: &profile.country, class: u32::from(profile.class), hertz: profile.hertz }
    }

    /// Whether a device can be set so where this is the store's table.
    fn exists(&self, table: &Table) -> Result<(), Refusal> {
        let has_class = table.has_letter(self.class);
        demand(is_country(self.country) && has_class && NOMINAL_HERTZ.contains(&self.hertz), BAD_DEVICE)
    }

    fn fits(&self, profile: &Profile) -> bool {
        profile.country == self.country && u32::from(profile.class) == self.class && profile.hertz == self.hertz
    }
}

/// The table of a store's image. In an image of another size the built-in classes count.
pub fn table_of(image: &[u8]) -> Table {
    image.get(SLOTS..).and_then(|table| Table::lent(table).ok()).unwrap_or_default()
}

/// At most one profile for each triple of country, class and hertz, in no particular order. An image that
/// no load made may mean several for one triple, of which the first counts.
#[derive(Clone, Debug, Default)]
pub struct Store {
    profiles: Vec<Profile>,
    table: Table,
}

impl Store {
    /// What an image means: a slot is used where its first byte is not 0.
    pub fn from_image(bytes: &[u8]) -> Store {
        let slots = bytes.chunks_exact(IMAGE).take(CAPACITY);
        let slots = slots.map(|slot| <&[u8; IMAGE]>::try_from(slot).expect("an image"));
        let profiles = slots.filter(|slot| slot[0] != 0).map(meaning).collect();
        Store { profiles, table: table_of(bytes) }
    }

    /// Slots that mean these profiles; their order is open.
    fn slots(&self) -> Vec<u8> {
        let mut bytes: Vec<u8> = self.profiles.iter().flat_map(image).collect();
        bytes.resize(SLOTS, 0);
        bytes
    }

    /// An image that means this store.
    pub fn image(&self) -> Vec<u8> {
        [&self.slots()[..], &self.table.image()].concat()
    }

    pub fn table(&self) -> &Table {
        &self.table
    }

    /// All profiles, in the order of their slots.
    pub fn profiles(&self) -> &[Profile] {
        &self.profiles
    }

    /// All profiles, in an order that depends on nothing else.
    pub fn sorted(&self) -> Vec<Profile> {
        let mut profiles = self.profiles.clone();
        profiles.sort();
        profiles
    }

    fn find(&self, device: &Device) -> Option<usize> {
        self.profiles.iter().position(|profile| device.fits(profile))
    }

    pub fn lookup(&self, device: &Device) -> Result<Profile, Refusal> {
        device.exists(&self.table)?;
        self.find(device).map(|at| self.profiles[at]).ok_or(NOT_STORED)
    }

    /// Stores a profile: 6, 7, 8.
    pub fn put(&mut self, profile: Profile, device: &Device) -> Result<(), Refusal> {
        demand(device.fits(&profile), OTHER_DEVICE)?;
        match self.find(device) {
            Some(at) => {
                demand(profile.serial > self.profiles[at].serial, OLD_SERIAL)?;
                self.profiles[at] = profile;
            }
            None => {
                demand(self.profiles.len() < CAPACITY, STORE_FULL)?;
                self.profiles.push(profile);
            }
        }
        Ok(())
    }
}

/// The lengths of packages.
pub fn package_lengths(s: &Sizes) -> RangeInclusive<usize> {
    s.signature() + SHORTEST..=s.signature() + LONGEST
}

/// Signs: private seed, master seed, salt, message, signature.
pub type Sign<'a> = &'a dyn Fn(&[u8], &[u8], &[u8], &[u8], &mut [u8]) -> u8;

/// Makes the package of a line under a table's image: 1, then 5, then what signing says.
pub fn make_package(
    s: &Sizes,
    table: &[u8],
    seeds: [&[u8]; 3],
    line: &[u8],
    package: &mut [u8],
    length: usize,
) -> (u8, usize) {
    let sign: Sign = &|seed, master, salt, message, out| scheme::sign(s, seed, master, salt, message, out);
    make_package_by(s, table, seeds, line, package, length, sign)
}

/// The same with another program that signs.
pub fn make_package_by(
    s: &Sizes,
    table: &[u8],
    seeds: [&[u8]; 3],
    line: &[u8],
    package: &mut [u8],
    length: usize,
    sign: Sign,
) -> (u8, usize) {
    let make = || {
        let table = Table::lent(table)?;
        let sizes = seeds.map(<[u8]>::len);
        demand(sizes == [s.key_seed, s.round_seed, s.salt], BAD_SIZE)?;
        demand(package.len() == *package_lengths(s).end(), BAD_SIZE)?;
        read_line(&table, line)?;
        let mut signature = vec![0; s.signature()];
        match sign(seeds[0], seeds[1], seeds[2], line, &mut signature) {
            0 => Ok([&signature, line].concat()),
            refusal => Err(refusal),
        }
    };
    answer_length(make(), package, length)
}

/// Checks a signature: key, message, signature.
pub type Verify<'a> = &'a dyn Fn(&[u8], &[u8], &[u8]) -> u8;

/// Loads a package into a store's image: 10, 1, what the checker says, 5, 6, 7, 8.
pub fn load(s: &Sizes, image: &mut [u8], key: &[u8], package: &[u8], device: &Device, verify: Verify) -> u8 {
    let loaded = || {
        let mut store = Store::from_image(image);
        device.exists(&store.table)?;
        demand(image.len() == STORE && key.len() == s.key(), BAD_SIZE)?;
        demand(package_lengths(s).contains(&package.len()), BAD_SIZE)?;
        let (signature, line) = package.split_at(s.signature());
        match verify(key, line, signature) {
            0 => (),
            refusal => return Err(refusal),
        }
        let profile = read_line(&store.table, line)?;
        store.put(profile, device)?;
        Ok([&store.slots(), &image[SLOTS..]].concat())
    };
    answer(loaded(), image)
}

/// Makes the table of a file the one of a store's image: 1, 13, 14. Every slot stays as it was.
pub fn load_table(image: &mut [u8], file: &[u8]) -> u8 {
    let loaded = || {
        demand(image.len() == STORE, BAD_SIZE)?;
        let table = read_table(file)?;
        demand(Store::from_image(image).profiles.is_empty(), STORE_IN_USE)?;
        Ok([&image[..SLOTS], &table.image()].concat())
    };
    answer(loaded(), image)
}

/// Whether just one slot of an image was written, and holds the profile: the first of its triple, or where none is of
/// it one that was free; which free one is open. The table stays as it was.
pub fn wrote_one_slot(old: &[u8], new: &[u8], profile: &Profile) -> bool {
    if [old.len(), new.len()] != [STORE; 2] || old[SLOTS..] != new[SLOTS..] {
        return false;
    }
    let before: Vec<_> = old[..SLOTS].chunks_exact(IMAGE).collect();
    let after: Vec<_> = new[..SLOTS].chunks_exact(IMAGE).collect();
    let wanted = image(profile);
    let is_free = |slot: &[u8]| slot[0] == 0;
    let triple = |slot: &[u8]| [&slot[1..4], &slot[HERTZ..HERTZ + 4]].concat();
    let has_triple = |slot: &[u8]| !is_free(slot) && triple(slot) == triple(&wanted);
    let written: Vec<_> = (0..CAPACITY).filter(|&i| before[i] != after[i]).collect();
    let [i] = written[..] else { return false };
    let chosen = match before.iter().position(|slot| has_triple(slot)) {
        Some(held) => i == held,
        None => is_free(before[i]),
    };
    chosen && after[i] == wanted
}

/// Writes the line of what is found in an image, if that exists which is asked for: 10, 1, 9; 5 where the image holds
/// what no load stored.
fn write_found(
    image: &[u8],
    exists: Result<(), Refusal>,
    find: impl FnOnce(&Store) -> Result<Profile, Refusal>,
    line: &mut [u8],
    length: usize,
) -> (u8, usize) {
    let make = || {
        exists?;
        demand(image.len() == STORE && line.len() == LONGEST, BAD_SIZE)?;
        let store = Store::from_image(image);
        write_line(&store.table, &find(&store)?)
    };
    answer_length(make(), line, length)
}

/// Writes the line stored for a device.
pub fn lookup(image: &[u8], device: &Device, line: &mut [u8], length: usize) -> (u8, usize) {
    write_found(image, device.exists(&table_of(image)), |store| store.lookup(device), line, length)
}

#[cfg(test)]
mod tests;
