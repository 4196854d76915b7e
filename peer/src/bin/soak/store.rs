//! Inputs for packages, loading, lookups and the nearest profile. The fast plain program signs and verifies.

use crate::lent::shown;
use crate::lines::{self, line};
use crate::tables;
use crate::turn::{damaged, number, resized, size, Turn};
use crate::world::Package;
use peer::archive::c;
use peer::line::cases::{other_hertz, some_rate, valid_under, NO_HERTZ};
use peer::line::{image, meaning, read_line, write_line, Profile, HERTZ, IMAGE, LONGEST, SHORTEST, VOLTS};
use peer::rng::Rng;
use peer::sizes::Sizes;
use peer::store::{self, package_lengths, table_of, Device, Measured, Store, CAPACITY, MEASURED_MAX, REACH, SLOTS};
use peer::table::cases::{some_profile, sound};
use peer::table::{Table, BUILT_IN, TABLE};
use std::fmt::Debug;

fn longest_package(s: &Sizes) -> usize {
    *package_lengths(s).end()
}

/// A valid line, and the image of the table that it is valid under.
fn line_and_table(rng: &mut Rng) -> (Vec<u8>, Vec<u8>) {
    let table = if rng.below(2) == 0 { BUILT_IN.clone() } else { sound(rng) };
    let profile = if table == BUILT_IN { lines::profile(rng, &table) } else { valid_under(rng, &table) };
    (write_line(&table, &profile).expect("valid"), table.image().to_vec())
}

/// One of 50 has the right sizes and a valid line, and of the others few.
pub fn make_package(t: &mut Turn) -> u8 {
    let whole = t.one_in(50);
    let seeds = t.seeds(if whole { 16 } else { 8 });
    let (line, table) = if whole {
        line_and_table(&mut t.rng)
    } else {
        let (table, lent) = tables::lent(&mut t.rng);
        (line(&mut t.rng, &table), lent)
    };
    let room = t.size_of(longest_package, if whole { 16 } else { 12 });
    compare_make_package(t, &table, &seeds, &line, room)
}

fn compare_make_package(t: &mut Turn, table: &[u8], seeds: &[Vec<u8>; 3], line: &[u8], room: usize) -> u8 {
    let (seeds, category) = (seeds.each_ref().map(|seed| &seed[..]), t.world.category);
    let mut expected = t.rng.bytes(room);
    let inputs = [table, seeds[0], seeds[1], seeds[2], line];
    let lent = t.lend_all(inputs);
    let (mut out, mut length) = (t.lend(&expected), t.lend_length());
    let [(a, b), (c, d), (e, f), (g, h), (i, j)] = lent.each_ref().map(|l| (l.pointer(), l.len()));
    let (k, l) = (out.pointer_mut(), out.len());
    // SAFETY: the buffers are alive for the call and do not overlap.
    let answer = unsafe { (category.functions.make_package)(a, b, c, d, e, f, g, h, i, j, k, l, length.pointer_mut()) };
    let (s, sign) = (&category.sizes, &category.plain.sign);
    let due = store::make_package_by(s, table, seeds, line, &mut expected, length.held, sign);
    let inputs = || inputs.map(shown).join(", ");
    assert_eq!((answer, length.value()), due, "answer and length on {} into {room} bytes", inputs());
    lent.iter().for_each(|l| l.demand_unchanged());
    out.demand(&expected);
    answer
}

/// A used slot of a triple that no package has: mostly a profile that is valid under the table, or what no load stores.
fn slot(rng: &mut Rng, at: usize, table: &Table) -> [u8; IMAGE] {
    let mut slot = if rng.below(8) == 0 { lines::image(rng, table) } else { image(&some_profile(rng, table)) };
    slot[0] = [1, 1, 1, 0xFF][rng.below(4)];
    slot[1..3].copy_from_slice(&[b'A' + at as u8, b'q']);
    if rng.below(8) > 0 {
        slot[2] = b'Q';
    }
    slot
}

/// The slot of `profile` itself, with a serial that is less, equal or greater, and its rate point, another or none.
fn own_slot(rng: &mut Rng, profile: &Profile) -> [u8; IMAGE] {
    let serial = [profile.serial - 1, profile.serial, profile.serial + 1][rng.below(3)];
    let rate = [profile.rate, Some(some_rate(rng)), None][rng.below(3)];
    image(&Profile { serial, rate, ..*profile })
}

/// A slot of its country and class, at the other hertz or at some that no grid has, with any serial.
fn slot_beside(rng: &mut Rng, profile: &Profile) -> [u8; IMAGE] {
    let hertz = [other_hertz(profile.hertz), NO_HERTZ[rng.below(NO_HERTZ.len())]][rng.below(2)];
    image(&Profile { hertz, serial: number(rng), ..*profile })
}

/// The table of a store for a package: mostly the one that it was made under.
fn store_table(rng: &mut Rng, table: &Table) -> [u8; TABLE] {
    match rng.below(8) {
        0 => tables::image(rng),
        _ => table.image(),
    }
}

/// A store's image: slots used or free, in any order, no triple in two of them. Mostly one is for the package's triple,
/// and often one for its country and class at other hertz.
pub fn store_image(rng: &mut Rng, package: &Package) -> Vec<u8> {
    let (filled, own, beside) = (rng.below(3) * 8, rng.below(CAPACITY * 3 / 2), rng.below(CAPACITY * 2));
    let (profile, lent) = (&package.profile, store_table(rng, &package.table));
    let (table, mut bytes) = (Table::from_image(&lent), Vec::new());
    for at in 0..CAPACITY {
        if at == own {
            bytes.extend(own_slot(rng, profile));
        } else if at == beside {
            bytes.extend(slot_beside(rng, profile));
        } else if filled == CAPACITY || rng.below(CAPACITY) < filled {
            bytes.extend(slot(rng, at, &table));
        } else {
            let mut free = rng.bytes(IMAGE);
            free[0] = 0;
            bytes.extend(if rng.below(2) == 0 { vec![0; IMAGE] } else { free });
        }
    }
    bytes.extend(lent);
    bytes
}

/// What a device is set to.
struct Setting {
    country: Vec<u8>,
    class: u32,
    hertz: u32,
}

impl Setting {
    fn of(profile: &Profile) -> Setting {
        let Device { country, class, hertz } = Device::of(profile);
        Setting { country: country.to_vec(), class, hertz }
    }

    fn device(&self) -> Device<'_> {
        Device { country: &self.country, class: self.class, hertz: self.hertz }
    }

    /// Makes it one that no device has, or, by luck, one has.
    fn lose(&mut self, rng: &mut Rng) {
        let Setting { country, class, hertz } = self;
        match rng.below(7) {
            0 => *country = resized(rng, country, 0),
            1 => *country = [&b"xA"[..], b"X[", b"@A", b"\0\0", b"A\xC3"][rng.below(5)].to_vec(),
            2 => *class = [0, 64, 69, 97, class.wrapping_add(256), class.wrapping_add(65_536)][rng.below(6)],
            3 => *class = number(rng),
            4 => *hertz = NO_HERTZ[rng.below(NO_HERTZ.len())],
            5 => *hertz = number(rng),
            _ => *country = damaged(rng, country),
        }
    }
}

/// What `load` is given.
struct Loading {
    image: Vec<u8>,
    key: Vec<u8>,
    package: Vec<u8>,
    setting: Setting,
}

/// Ends of the lengths that are looked at.
fn ends(s: &Sizes) -> [usize; 9] {
    let (signature, lengths) = (s.signature(), package_lengths(s));
    let [first, last] = [*lengths.start(), *lengths.end()];
    [0, 1, signature - 1, signature, signature + 1, first - 1, first, last, last + 1]
}

impl Loading {
    /// A size, the category or the device's setting, or two of them, are wrong.
    fn refused_early(&mut self, t: &mut Turn) {
        for _ in 0..1 + t.rng.below(2) {
            let other = t.other();
            match t.rng.below(8) {
                0 => self.image = resized(&mut t.rng, &self.image, 0),
                1 => self.key = resized(&mut t.rng, &self.key, 0),
                2 => self.package.resize(*t.pick(&ends(t.sizes())), b'7'),
                3 => self.package = resized(&mut t.rng, &self.package, 0),
                4 => self.package.clone_from(&t.pick(&other.packages).bytes),
                5 => {
                    self.key.clone_from(&other.key);
                    self.package.clone_from(&t.pick(&other.packages).bytes);
                }
                _ => self.setting.lose(&mut t.rng),
            }
        }
    }

    /// Package or key damaged, the device set to another country or class or to the other hertz, or another table in
    /// the store; almost half of them are left.
    fn spoilt(&mut self, t: &mut Turn) {
        let (line, rng) = (t.sizes().signature(), &mut t.rng);
        let table = table_of(&self.image);
        match rng.below(17) {
            0..=3 => self.package = damaged(rng, &self.package),
            4 => self.package[line..][rng.below(SHORTEST)] ^= 1 << rng.below(8),
            5 => self.key = damaged(rng, &self.key),
            6 => self.setting.class = table.rows()[rng.below(table.rows().len())].letter,
            7 => self.setting.country[rng.below(2)] = b'A' + rng.below(26) as u8,
            8 => self.setting.hertz = other_hertz(self.setting.hertz),
            9 => self.image[SLOTS..].copy_from_slice(&tables::image(rng)),
            _ => (),
        }
    }
}

/// One of eight is verified.
pub fn load(t: &mut Turn) -> u8 {
    let package = t.pick(&t.world.packages);
    let mut input = Loading {
        image: store_image(&mut t.rng, package),
        key: t.world.key.clone(),
        package: package.bytes.clone(),
        setting: Setting::of(&package.profile),
    };
    if t.one_in(8) {
        input.spoilt(t);
    } else {
        input.refused_early(t);
    }
    compare_load(t, &input)
}

fn compare_load(t: &mut Turn, input: &Loading) -> u8 {
    let Loading { image, key, package, setting } = input;
    let (device, category) = (setting.device(), t.world.category);
    let (mut store, mut expected) = (t.lend(image), image.clone());
    let lent = t.lend_all([key, package, device.country]);
    let [(a, b), (c, d), (e, f)] = lent.each_ref().map(|l| (l.pointer(), l.len()));
    let (g, h) = (store.pointer_mut(), store.len());
    // SAFETY: as above.
    let answer = unsafe { (category.functions.load)(g, h, a, b, c, d, e, f, device.class, device.hertz) };
    let (s, verify) = (&category.sizes, &category.plain.verify);
    let due = store::load(s, &mut expected, key, package, &device, verify);
    assert_eq!(answer, due, "answer on {} for {device:?}, store {}", shown(package), shown(image));
    lent.iter().for_each(|l| l.demand_unchanged());
    if answer == 0 {
        let [own, other] = [store.content(), &expected].map(|image| Store::from_image(image).sorted());
        assert_eq!(own, other, "the store after a package for {device:?}");
        let line = &package[s.signature()..];
        let profile = read_line(&table_of(image), line).expect("a line that was loaded");
        assert!(store::wrote_one_slot(image, store.content(), &profile), "slots after a package for {device:?}");
    } else {
        store.demand_unchanged();
    }
    answer
}

/// Any store, asked for one of its triples, for another one, or for none that there is.
pub fn lookup(t: &mut Turn) -> u8 {
    let package = t.pick(&t.world.packages);
    let (profile, image) = (package.profile, store_image(&mut t.rng, package));
    let at = t.rng.below(CAPACITY) * IMAGE;
    let mut setting = Setting::of(&meaning(image[at..at + IMAGE].try_into().expect("a slot")));
    match t.rng.below(8) {
        0..=2 => setting = Setting::of(&profile),
        3 => setting = Setting { hertz: other_hertz(profile.hertz), ..Setting::of(&profile) },
        4 => setting.lose(&mut t.rng),
        5 => setting.class = t.pick(table_of(&image).rows()).letter,
        _ => (),
    }
    let (image, room) = (resized(&mut t.rng, &image, 15), size(&mut t.rng, LONGEST, 15));
    compare_lookup(t, &image, &setting.device(), room)
}

/// Slices as C is lent them.
type In = (*const u8, usize);
type Out = (*mut u8, usize);

/// Compares an entry that reads a store for a country and writes a line. What it is lent is alive for the call and does
/// not overlap.
fn compare_line(
    t: &mut Turn,
    (image, country, room): (&[u8], &[u8], usize),
    asked: &dyn Debug,
    proved: impl FnOnce([In; 2], Out, *mut usize) -> u8,
    plain: impl FnOnce(&mut [u8], usize) -> (u8, usize),
) -> u8 {
    let mut expected = t.rng.bytes(room);
    let lent = t.lend_all([image, country]);
    let (mut out, mut length) = (t.lend(&expected), t.lend_length());
    let read = lent.each_ref().map(|l| (l.pointer(), l.len()));
    let answer = proved(read, (out.pointer_mut(), out.len()), length.pointer_mut());
    let due = plain(&mut expected, length.held);
    let found = (answer, length.value());
    assert_eq!(found, due, "answer and length for {asked:?} into {room} bytes, store {}", shown(image));
    lent.iter().for_each(|l| l.demand_unchanged());
    out.demand(&expected);
    answer
}

fn compare_lookup(t: &mut Turn, image: &[u8], device: &Device, room: usize) -> u8 {
    let proved = |[(a, b), (c, d)]: [In; 2], (e, f): Out, length: *mut usize| {
        // SAFETY: it is lent what `compare_line` says.
        unsafe { c::gridprofile_lookup(a, b, c, d, device.class, device.hertz, e, f, length) }
    };
    let plain = |line: &mut [u8], length| store::lookup(image, device, line, length);
    compare_line(t, (image, device.country, room), device, proved, plain)
}

/// Volts about these, often at the end of one reach or of two, and now and then any.
fn volts_about(rng: &mut Rng, volts: u32) -> u32 {
    let away = match rng.below(16) {
        0 => number(rng),
        1..=7 => [0, 1, REACH - 1, REACH, REACH + 1, 2 * REACH, 2 * REACH + 1][rng.below(7)],
        _ => rng.below(2 * REACH as usize) as u32,
    };
    [volts.wrapping_sub(away), volts.wrapping_add(away)][rng.below(2)]
}

/// Brings slots to the country and hertz of `profile` and to volts about its own, used ones and free ones. The class
/// mostly follows.
fn crowd(rng: &mut Rng, image: &mut [u8], profile: &Profile) {
    let (few, table) = (1 + rng.below(6), table_of(image));
    for slot in image[..SLOTS].chunks_exact_mut(IMAGE) {
        if rng.below(few) == 0 {
            let volts = volts_about(rng, profile.volts);
            slot[1..3].copy_from_slice(&profile.country);
            slot[VOLTS..VOLTS + 4].copy_from_slice(&volts.to_le_bytes());
            slot[HERTZ..HERTZ + 4].copy_from_slice(&profile.hertz.to_le_bytes());
            slot[3] = table.class_of(volts).filter(|_| rng.below(16) > 0).unwrap_or(slot[3]);
        }
    }
}

/// A store with many profiles of one country and hertz, asked about the volts of one of them, about others, or for
/// what there is not.
pub fn nearest(t: &mut Turn) -> u8 {
    let package = t.pick(&t.world.packages);
    let (mut profile, mut image) = (package.profile, store_image(&mut t.rng, package));
    crowd(&mut t.rng, &mut image, &profile);
    if t.one_in(4) {
        let at = t.rng.below(CAPACITY) * IMAGE;
        profile = meaning(image[at..at + IMAGE].try_into().expect("a slot"));
    }
    let mut setting = Setting::of(&profile);
    if t.one_in(8) {
        setting.lose(&mut t.rng);
    }
    let volts = match t.rng.below(32) {
        0 => number(&mut t.rng),
        1 => *t.pick(&[MEASURED_MAX, MEASURED_MAX + 1, profile.volts.wrapping_add(65_536)]),
        _ => volts_about(&mut t.rng, profile.volts),
    };
    let (image, room) = (resized(&mut t.rng, &image, 15), size(&mut t.rng, LONGEST, 15));
    compare_nearest(t, &image, &Measured { country: &setting.country, hertz: setting.hertz, volts }, room)
}

fn compare_nearest(t: &mut Turn, image: &[u8], measured: &Measured, room: usize) -> u8 {
    let proved = |[(a, b), (c, d)]: [In; 2], (e, f): Out, length: *mut usize| {
        // SAFETY: it is lent what `compare_line` says.
        unsafe { c::gridprofile_nearest(a, b, c, d, measured.hertz, measured.volts, e, f, length) }
    };
    let plain = |line: &mut [u8], length| store::nearest(image, measured, line, length);
    compare_line(t, (image, measured.country, room), measured, proved, plain)
}
