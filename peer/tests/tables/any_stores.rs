//! Images of any bytes as stores: any slots, and any table.

use crate::{agree, is_letter, line_of, slots_mut, store_with, usual};
use peer::archive::both::{Both, Sent, Signer};
use peer::archive::{Category, CATEGORIES, CATEGORY_1};
use peer::harness::Tally;
use peer::line::cases::NO_HERTZ;
use peer::line::{image, Profile, HERTZ, NOMINAL_HERTZ};
use peer::rng::Rng;
use peer::store::{table_of, Device, Measured, Store, SLOTS, STORE};
use peer::table::cases::{any_image, some_profile, some_volts, STRANGE};
use peer::table::{Table, TABLE};

/// Few countries, so that triples come again.
const COUNTRIES: [&[u8; 2]; 2] = [b"XA", b"XB"];

/// A store with any table, and slots of profiles about its rows: used by any byte but 0, free ones that are not blank,
/// classes that are none and hertz that no grid has. One of eight is nothing but noise.
fn any_store(rng: &mut Rng) -> Vec<u8> {
    let mut bytes = rng.bytes(STORE);
    if rng.below(8) == 0 {
        return bytes;
    }
    bytes[SLOTS..].copy_from_slice(&any_image(rng));
    let (table, free) = (table_of(&bytes), rng.below(6));
    for slot in slots_mut(&mut bytes) {
        slot.copy_from_slice(&image(&some_profile(rng, &table)));
        slot[0] = if rng.below(8) < free { 0 } else { [1, 2, 85, 128, 254, 255][rng.below(6)] };
        if rng.below(8) > 0 {
            slot[1..3].copy_from_slice(COUNTRIES[rng.below(COUNTRIES.len())]);
        }
        if rng.below(2) == 0 {
            slot[4..8].copy_from_slice(&(rng.below(4) as u32).to_le_bytes());
        }
        if rng.below(12) == 0 {
            slot[HERTZ..HERTZ + 4].copy_from_slice(&NO_HERTZ[rng.below(NO_HERTZ.len())].to_le_bytes());
        }
    }
    bytes
}

/// Letters of the store's table, classes of its slots, and others.
fn some_class(rng: &mut Rng, bytes: &[u8]) -> u32 {
    let (table, profiles) = (table_of(bytes), Store::from_image(bytes).sorted());
    match rng.below(8) {
        0 => STRANGE[rng.below(STRANGE.len())],
        1 => rng.below(600) as u32,
        2..=4 if !profiles.is_empty() => u32::from(profiles[rng.below(profiles.len())].class),
        _ => table.rows()[rng.below(table.rows().len())].letter,
    }
}

/// What a lookup finds, by the rules: the first used slot of the triple, written where it breaks none.
fn due(bytes: &[u8], device: &Device) -> u8 {
    let table: [u8; TABLE] = bytes[SLOTS..].try_into().expect("a table");
    let fits =
        |p: &&Profile| p.country == device.country && u32::from(p.class) == device.class && p.hertz == device.hertz;
    let store = Store::from_image(bytes);
    let first = store.profiles().iter().find(fits);
    match first {
        _ if !is_letter(&table, device.class) => 10,
        None => 9,
        Some(p) if agree(&table, p.class, p.volts) && p.serial > 0 => 0,
        Some(_) => 5,
    }
}

#[test]
fn lookups() {
    let (mut t, mut rng) = (Tally::new("lookup, any store and table"), Rng::new(0x6C6F_6F6B));
    for _ in 0..6_000 {
        let bytes = any_store(&mut rng);
        let both = Both::from(&CATEGORY_1, &bytes);
        for (country, hertz) in COUNTRIES.into_iter().flat_map(|country| NOMINAL_HERTZ.map(|hertz| (country, hertz))) {
            for _ in 0..5 {
                let device = Device { country, class: some_class(&mut rng, &bytes), hertz };
                assert_eq!(both.find(&mut t, &device), due(&bytes, &device), "{device:?}");
            }
        }
    }
    t.finish(120_000, &[0, 5, 9, 10]);
}

#[test]
fn nearest() {
    let (mut t, mut rng) = (Tally::new("nearest, any store and table"), Rng::new(0x6E65_6172));
    for _ in 0..6_000 {
        let bytes = any_store(&mut rng);
        let (both, table) = (Both::from(&CATEGORY_1, &bytes), table_of(&bytes));
        for (country, hertz) in COUNTRIES.into_iter().flat_map(|country| NOMINAL_HERTZ.map(|hertz| (country, hertz))) {
            for _ in 0..5 {
                let away = [0, 1, 20, 39, 40, 41][rng.below(6)];
                let volts = some_volts(&mut rng, &table).wrapping_add(away);
                both.near(&mut t, &Measured { country, hertz, volts }).err();
            }
        }
    }
    t.finish(120_000, &[0, 5, 9, 10]);
}

/// Packages loaded into such stores. A part of the stores has slots of the package's own triple.
fn loads_at(category: &Category, turns: usize) {
    let [mut loads, mut finds] = ["load, any store and table", "lookup after it"].map(|name| category.tally(name));
    let mut rng = Rng::new(0x6C6F_6164);
    let signer = Signer::new(category, &mut rng);
    let post = |rng: &mut Rng| {
        let (letter, volts) = (b'A' + rng.below(26) as u8, 100 + rng.below(901) as u32);
        let country = *COUNTRIES[rng.below(COUNTRIES.len())];
        let profile = Profile { country, ..usual(letter, volts, 1 + rng.below(4) as u32) };
        (profile, signer.package(rng, &line_of(&profile)))
    };
    let posts: Vec<_> = (0..60).map(|_| post(&mut rng)).collect();
    for _ in 0..turns {
        let (profile, package) = &posts[rng.below(posts.len())];
        let mut bytes = any_store(&mut rng);
        if rng.below(4) > 0 {
            // a table whose first row has the profile's class and volts
            let (low, high) = (rng.below(profile.volts as usize + 1) as u32, profile.volts + rng.below(200) as u32);
            let row = [u32::from(profile.class), low, high].map(u32::to_le_bytes).concat();
            bytes[SLOTS + 4..SLOTS + 16].copy_from_slice(&row);
        }
        let mut both = Both::from(category, &bytes);
        let mut device = Device::of(profile);
        if rng.below(6) == 0 {
            device.class = some_class(&mut rng, &bytes);
        }
        both.load(&mut loads, Sent { key: &signer.key, package }, &device, &|_, _, _| 0);
        both.find(&mut finds, &device);
    }
    loads.finish(turns, &[0, 5, 6, 7, 8, 10]);
    finds.finish(turns, &[0, 5, 9, 10]);
}

#[test]
fn loads() {
    for (category, turns) in CATEGORIES.iter().zip([4_000, 600, 400]) {
        loads_at(category, turns);
    }
}

/// Each byte of the table of a store that holds profiles changed to each value: the lookup goes by what the table then
/// means.
#[test]
fn every_byte_of_the_table() {
    let mut t = Tally::new("lookup, bytes of a store's table");
    let rows = [peer::table::Row::new(b'K', 200, 240), peer::table::Row::new(b'L', 241, 300)];
    let whole = store_with(&Table::of(&rows).image(), &[usual(b'K', 240, 3), usual(b'L', 241, 3)]);
    for (at, byte) in (SLOTS..STORE).flat_map(|at| (0..=255).map(move |byte| (at, byte))) {
        let mut bytes = whole.clone();
        bytes[at] = byte;
        let both = Both::from(&CATEGORY_1, &bytes);
        for class in [75, 76] {
            let device = Device { country: b"XA", class, hertz: 50 };
            assert_eq!(both.find(&mut t, &device), due(&bytes, &device), "{at} {byte}");
        }
    }
    t.finish(TABLE * 512, &[0, 5, 10]);
}
