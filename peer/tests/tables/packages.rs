//! Packages made under one table, and loaded into stores with another.

use crate::{agree, line_of, sound_tables, store_with, usual};
use peer::archive::both::{Both, Sent, Signer};
use peer::archive::{Category, CATEGORIES};
use peer::harness::Tally;
use peer::line::Profile;
use peer::rng::Rng;
use peer::store::{make_package_by, package_lengths, Device};
use peer::table::cases::{any_image, some_profile};
use peer::table::{Table, TABLE};

/// Makes a package under a table in both programs: what is made, or the refusal.
fn made(category: &Category, t: &mut Tally, seeds: &[Vec<u8>; 3], table: &[u8], line: &[u8]) -> Result<Vec<u8>, u8> {
    let (seeds, room) = (seeds.each_ref().map(|seed| &seed[..]), *package_lengths(&category.sizes).end());
    let old = t.inputs().wrapping_mul(0x9E37_79B9);
    let proved = |out: &mut [u8]| category.make_package(table, seeds, line, out, old);
    let plain = |out: &mut [u8]| make_package_by(&category.sizes, table, seeds, line, out, old, &category.plain.sign);
    match t.both(room, proved, plain, || format!("\"{}\" under {table:02x?}", line.escape_ascii())) {
        0 => (),
        refusal => return Err(refusal),
    }
    let mut package = vec![0; room];
    let (_, length) = category.make_package(table, seeds, line, &mut package, 0);
    package.truncate(length);
    Ok(package)
}

/// The seeds of a signer, with others for each package.
fn seeds(category: &Category, signer: &Signer, rng: &mut Rng) -> [Vec<u8>; 3] {
    let s = category.sizes;
    [signer.private_seed.clone(), rng.bytes(s.round_seed), rng.bytes(s.salt)]
}

/// Volts and letters that several tables have.
const LINES: [(u8, u32); 12] = [
    (b'B', 230),
    (b'Q', 230),
    (b'M', 230),
    (b'D', 230),
    (b'C', 230),
    (b'R', 750),
    (b'D', 750),
    (b'T', 750),
    (b'A', 100),
    (b'E', 100),
    (b'D', 1_000),
    (b'B', 140),
];

/// Each line packaged under each table, and what is made loaded into a store with each table: the table of each decides
/// for itself.
fn crossed_at(category: &Category, lines: usize) {
    let [mut makes, mut loads, mut finds] =
        ["make_package, tables", "load, other tables", "lookup, other tables"].map(|name| category.tally(name));
    let mut rng = Rng::new(0x6372_6F73);
    let signer = Signer::new(category, &mut rng);
    let tables = sound_tables().map(|table| table.image());
    for (class, volts) in LINES.into_iter().take(lines) {
        let profile = usual(class, volts, 12);
        let line = line_of(&profile);
        for own in &tables {
            let package = made(category, &mut makes, &seeds(category, &signer, &mut rng), own, &line);
            assert_eq!(package.as_ref().err(), if agree(own, class, volts) { None } else { Some(&5) });
            let Ok(package) = package else { continue };
            for other in &tables {
                let mut both = Both::from(category, &store_with(other, &[]));
                let answer =
                    both.load_fast(&mut loads, Sent { key: &signer.key, package: &package }, &Device::of(&profile));
                let has_letter = crate::is_letter(other, class.into());
                let due = if agree(other, class, volts) { 0 } else { 5 };
                assert_eq!(answer, if has_letter { due } else { 10 }, "{class} {volts}");
                let wanted = if answer == 0 { 0 } else { 9 };
                assert_eq!(both.find(&mut finds, &Device::of(&profile)), if has_letter { wanted } else { 10 });
            }
        }
    }
    makes.finish(6 * lines, &[0, 5]);
    loads.finish(6 * lines, &[0, 5, 10]);
    finds.finish(6 * lines, &[0, 9, 10]);
}

#[test]
fn crossed() {
    for (category, lines) in CATEGORIES.iter().zip([12, 6, 4]) {
        crossed_at(category, lines);
    }
}

/// Packages under images of any bytes, and loaded into a store with the same image.
fn any_tables_at(category: &Category, turns: usize) {
    let [mut makes, mut loads] = ["make_package, any table", "load, any table"].map(|name| category.tally(name));
    let mut rng = Rng::new(0x7061_636B);
    let signer = Signer::new(category, &mut rng);
    for _ in 0..turns {
        let lent: [u8; TABLE] = any_image(&mut rng);
        let profile: Profile = some_profile(&mut rng, &Table::from_image(&lent));
        let line = line_of(&profile);
        if line.len() > 84 {
            continue;
        }
        let package = made(category, &mut makes, &seeds(category, &signer, &mut rng), &lent, &line);
        assert_eq!(package.is_ok(), agree(&lent, profile.class, profile.volts));
        if let Ok(package) = package {
            let mut both = Both::from(category, &store_with(&lent, &[]));
            let sent = Sent { key: &signer.key, package: &package };
            assert_eq!(both.load_fast(&mut loads, sent, &Device::of(&profile)), 0);
        }
    }
    makes.finish(turns * 9 / 10, &[0, 5]);
    loads.finish(turns / 4, &[0]);
}

#[test]
fn any_tables() {
    for (category, turns) in CATEGORIES.iter().zip([400, 60, 40]) {
        any_tables_at(category, turns);
    }
}
