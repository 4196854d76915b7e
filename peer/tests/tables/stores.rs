//! Stores with a table of their own: which devices there are, what is loaded, found and nearest.

use crate::{agree, is_letter, line_of, railway, sound_tables, store_with, usual, xa};
use peer::archive::both::{Both, Sent, Signer};
use peer::archive::{Category, CATEGORIES, CATEGORY_1};
use peer::harness::Tally;
use peer::line::{Profile, NOMINAL_HERTZ};
use peer::rng::Rng;
use peer::store::{Device, Measured, CAPACITY, SLOTS, STORE};
use peer::table::cases::{file_of, image_with, RAILWAY, STRANGE};
use peer::table::{Row, Table, BUILT_IN_IMAGE};

fn measured(volts: u32) -> Measured<'static> {
    Measured { country: b"XA", hertz: 50, volts }
}

/// The worked table loaded; then devices of its classes and of others, the worked lines, and another table.
fn worked_at(category: &Category) {
    let names = ["load_table, worked", "load, worked table", "lookup, worked table", "nearest, worked table"];
    let [mut tables, mut loads, mut finds, mut nears] = names.map(|name| category.tally(name));
    let (mut rng, mut both) = (Rng::new(0x776F_726B), Both::empty(category));
    let signer = Signer::new(category, &mut rng);
    let (of_railway, built_in) = (usual(b'R', 750, 12), usual(b'D', 750, 12));
    let packages = [of_railway, built_in].map(|profile| signer.package(&mut rng, &line_of(&profile)));
    let sent = |at: usize| Sent { key: &signer.key, package: &packages[at] };
    assert_eq!(both.load_table(&mut tables, RAILWAY.as_bytes()), 0);
    for class in 0..400 {
        let wanted = if b"EMRT".map(u32::from).contains(&class) { 9 } else { 10 };
        assert_eq!(both.find(&mut finds, &xa(class)), wanted, "{class}");
    }
    let steps =
        [(1, 'R', 5), (1, 'D', 10), (0, 'D', 10), (0, 'A', 10), (0, 'E', 6), (0, 'T', 6), (0, 'R', 0), (0, 'R', 7)];
    for (at, class, wanted) in steps {
        assert_eq!(both.load_clear(&mut loads, sent(at), &xa(class as u32)), wanted, "{class}");
    }
    assert_eq!(both.find(&mut finds, &xa(82)), 0);
    assert_eq!(both.line(&xa(82)), line_of(&of_railway));
    for (volts, wanted) in [(709, 9), (710, 0), (750, 0), (790, 0), (791, 9), (2_001, 10)] {
        assert_eq!(both.near(&mut nears, &measured(volts)).err().unwrap_or(0), wanted, "{volts}");
    }
    for (file, wanted) in [(RAILWAY, 14), ("R,750,750\n", 14), ("R,750,750", 13), ("", 13)] {
        assert_eq!(both.load_table(&mut tables, file.as_bytes()), wanted, "{file}");
    }
    let mut other = Both::empty(category);
    for (at, class, wanted) in [(0, 'D', 5), (0, 'R', 10), (1, 'D', 0)] {
        assert_eq!(other.load_clear(&mut loads, sent(at), &xa(class as u32)), wanted, "{class}");
    }
    tables.finish(5, &[0, 13, 14]);
    loads.finish(11, &[0, 5, 6, 7, 10]);
    finds.finish(401, &[0, 9, 10]);
    nears.finish(6, &[0, 9, 10]);
}

#[test]
fn worked_cases() {
    CATEGORIES.iter().for_each(worked_at);
}

/// Numbers that a device's class may be: every byte and more, letters in other bytes of a number, and strange ones.
fn classes() -> Vec<u32> {
    let shifted = (65..=90).flat_map(|letter| [letter + 256, letter + 65_536, letter + (1 << 24), letter << 8]);
    (0..=600).chain(shifted).chain(STRANGE).collect()
}

/// Only the letters of a store's table are classes of a device: in an empty store they find nothing, and in one with a
/// profile of each class a line.
#[test]
fn every_class() {
    let mut t = Tally::new("lookup, every class");
    for table in sound_tables() {
        let rows = table.rows().to_vec();
        let held: Vec<Profile> = rows.iter().take(CAPACITY).map(|row| usual(row.letter as u8, row.high, 3)).collect();
        for (held, stored) in [(&[][..], 0), (&held, held.len())] {
            let both = Both::from(&CATEGORY_1, &store_with(&table.image(), held));
            for class in classes() {
                let wanted = match rows.iter().position(|row| row.letter == class) {
                    None => 10,
                    Some(at) if at < stored => 0,
                    Some(_) => 9,
                };
                assert_eq!(both.find(&mut t, &xa(class)), wanted, "{class}");
            }
        }
    }
    t.finish(6 * 2 * 700, &[0, 9, 10]);
}

/// Letters of images that no file makes: a device may have any of them. A profile with a letter that is none is not
/// written, and of a number of several bytes no slot has it.
#[test]
fn strange_classes() {
    let mut t = Tally::new("lookup, strange classes");
    for letter in STRANGE.into_iter().chain(60..100) {
        let rows = [Row { letter, low: 100, high: 1_000 }, Row::new(b'B', 230, 230)];
        for (used, low_byte) in
            [1, 2, 26, 27, u32::MAX].into_iter().flat_map(|used| [false, true].map(|low| (used, low)))
        {
            let table = image_with(used, &rows, &BUILT_IN_IMAGE);
            let class = if low_byte { letter as u8 } else { b'B' };
            let both = Both::from(&CATEGORY_1, &store_with(&table, &[usual(class, 230, 5)]));
            for asked in [letter, u32::from(letter as u8), u32::from(b'B'), 0, letter.wrapping_add(256), 66 + 256] {
                let wanted = if !is_letter(&table, asked) {
                    10
                } else if asked != u32::from(class) {
                    9
                } else if agree(&table, class, 230) {
                    0
                } else {
                    5
                };
                assert_eq!(both.find(&mut t, &xa(asked)), wanted, "{asked} under {letter} and {used}");
            }
        }
    }
    t.finish(58 * 10 * 6, &[0, 5, 9, 10]);
}

/// A profile at each end of each row and beside it, found as the nearest and by its class: its line, or 5 where its
/// volts have no class or another.
#[test]
fn nearest_at_the_ends() {
    let [mut nears, mut finds] = ["nearest, ends of rows", "lookup, ends of rows"].map(Tally::new);
    for table in sound_tables().map(|table| (table.image(), table)) {
        let (lent, rows) = (table.0, table.1.rows().to_vec());
        for row in rows {
            for volts in [row.low - 1, row.low, row.high, row.high + 1] {
                for class in [row.letter as u8, b'Q', b'B'] {
                    let profile = usual(class, volts, 3);
                    let both = Both::from(&CATEGORY_1, &store_with(&lent, &[profile]));
                    let good = agree(&lent, class, volts);
                    for asked in [volts - 40, volts, volts + 40] {
                        let wanted = if good { Ok(line_of(&profile)) } else { Err(5) };
                        assert_eq!(both.near(&mut nears, &measured(asked)), wanted, "{volts}");
                    }
                    assert_eq!(both.near(&mut nears, &measured(volts + 41)), Err(9));
                    let due = if good { 0 } else { 5 };
                    let wanted = if is_letter(&lent, class.into()) { due } else { 10 };
                    assert_eq!(both.find(&mut finds, &xa(class.into())), wanted, "{volts}");
                }
            }
        }
    }
    nears.finish(40 * 4 * 3 * 4, &[0, 5, 9]);
    finds.finish(40 * 4 * 3, &[0, 5, 10]);
}

/// The same profiles under every two tables: nearest is the same one, and its line or 5 goes by the store's own table.
#[test]
fn nearest_under_another_table() {
    let mut t = Tally::new("nearest, under another table");
    let lent = sound_tables().map(|table| table.image());
    for (own, other) in lent.iter().flat_map(|own| lent.iter().map(move |other| (own, other))) {
        let volts = [100, 140, 199, 230, 300, 400, 560, 700, 750, 900, 960, 1_000];
        let class = |volts| (b'A'..=b'Z').find(|&class| agree(own, class, volts)).unwrap_or(b'B');
        let held = volts.map(|volts| usual(class(volts), volts, 1));
        let both = Both::from(&CATEGORY_1, &store_with(other, &held));
        for asked in (60..=1_040).step_by(5) {
            let near = held.iter().min_by_key(|held| (held.volts.abs_diff(asked), held.volts)).expect("one");
            let wanted = match near.volts.abs_diff(asked) {
                41.. => Err(9),
                _ if agree(other, near.class, near.volts) => Ok(line_of(near)),
                _ => Err(5),
            };
            assert_eq!(both.near(&mut t, &measured(asked)), wanted, "{asked}");
        }
    }
    t.finish(36 * 197, &[0, 5, 9]);
}

/// Stores of other sizes: the built-in classes count for 10, whatever bytes stand where a table would; then it is 1.
#[test]
fn sizes() {
    let [mut loads, mut finds, mut nears] =
        ["load", "lookup", "nearest"].map(|entry| Tally::new(format!("{entry}, sizes")));
    let mut rng = Rng::new(0x7369_7A73);
    let signer = Signer::new(&CATEGORY_1, &mut rng);
    let package = signer.package(&mut rng, &line_of(&usual(b'R', 750, 12)));
    let sent = Sent { key: &signer.key, package: &package };
    let table = railway().image();
    let whole = [store_with(&table, &[]), table.repeat(20)].concat();
    let lengths = (0..=2 * STORE).filter(|len| len % 61 == 0 || len % 76 == 0 || len.abs_diff(STORE) < 9);
    for len in lengths.chain([SLOTS - 1, SLOTS + 1, SLOTS + 4, SLOTS + 315, STORE + 316]) {
        for class in ['R', 'E', 'A', 'D', 'Q'] {
            let mut both = Both::from(&CATEGORY_1, &whole[..len]);
            let (found, loaded) = match (len == STORE, class) {
                (true, 'R') => (9, 0),
                (true, 'E') => (9, 6),
                (false, 'A' | 'D') => (1, 1),
                _ => (10, 10),
            };
            assert_eq!(both.find(&mut finds, &xa(class as u32)), found, "{class} {len}");
            assert_eq!(both.load_fast(&mut loads, sent, &xa(class as u32)), loaded, "{class} {len}");
        }
        let both = Both::from(&CATEGORY_1, &whole[..len]);
        assert_eq!(both.near(&mut nears, &measured(230)), Err(if len == STORE { 9 } else { 1 }), "{len}");
        assert_eq!(both.near(&mut nears, &measured(2_001)), Err(10), "{len}");
    }
    loads.finish(100 * 5, &[0, 1, 6, 10]);
    finds.finish(100 * 5, &[1, 9, 10]);
    nears.finish(100 * 2, &[1, 9, 10]);
}

/// Lines signed with volts in gaps or with a letter that the volts have not: 5, on every device of the table.
fn broken_lines_at(category: &Category) {
    let mut t = category.tally("load, lines that the table refuses");
    let mut rng = Rng::new(0x6761_7073);
    let signer = Signer::new(category, &mut rng);
    let cases =
        [(b'M', 401), (b'R', 599), (b'R', 901), (b'T', 949), (b'E', 200), (b'M', 199), (b'D', 750), (b'B', 230)];
    for (class, volts) in cases {
        let package = signer.package(&mut rng, &line_of(&usual(class, volts, 12)));
        for device in ['E', 'M', 'R', 'T'].map(|class| xa(class as u32)) {
            let mut both = Both::from(category, &store_with(&railway().image(), &[]));
            assert_eq!(both.load_fast(&mut t, Sent { key: &signer.key, package: &package }, &device), 5);
        }
    }
    t.finish(32, &[5]);
}

#[test]
fn broken_lines() {
    CATEGORIES.iter().for_each(broken_lines_at);
}

/// A store that is filled under a table with 26 classes: 16 triples, and no room for a 17th; each is found, and the
/// table stays.
fn full_at(category: &Category) {
    let names = ["load, 26 classes", "lookup, 26 classes", "load_table, 26 classes"];
    let [mut loads, mut finds, mut tables] = names.map(|name| category.tally(name));
    let (table, mut rng) = (&sound_tables()[5], Rng::new(0x6675_6C6C));
    let (signer, mut both) = (Signer::new(category, &mut rng), Both::empty(category));
    assert_eq!(both.load_table(&mut tables, &file_of(table.rows())), 0);
    let profile = |at: usize| {
        let row = table.rows()[(at / 2 + 5) % 26];
        Profile { hertz: NOMINAL_HERTZ[at % 2], ..usual(row.letter as u8, [row.low, row.high][at % 2], 7) }
    };
    for at in 0..18 {
        let package = signer.package(&mut rng, &line_of(&profile(at)));
        let answer =
            both.load_fast(&mut loads, Sent { key: &signer.key, package: &package }, &Device::of(&profile(at)));
        assert_eq!(answer, if at < CAPACITY { 0 } else { 8 });
        assert_eq!(both.load_table(&mut tables, RAILWAY.as_bytes()), 14);
        assert_eq!(both.load_table(&mut tables, b"Z"), 13);
    }
    for at in 0..52 {
        let wanted = if at < CAPACITY { 0 } else { 9 };
        assert_eq!(both.find(&mut finds, &Device::of(&profile(at))), wanted, "{at}");
    }
    assert_eq!(both.image()[SLOTS..], table.image());
    loads.finish(18, &[0, 8]);
    finds.finish(52, &[0, 9]);
    tables.finish(37, &[0, 13, 14]);
}

#[test]
fn full_stores() {
    CATEGORIES.iter().for_each(full_at);
}

/// A load writes one slot, and no byte of a table of any bytes; what is free there stays free.
#[test]
fn loads_keep_the_table() {
    let (mut t, mut rng) = (Tally::new("load, tables with noise"), Rng::new(0x6B65_6570));
    let signer = Signer::new(&CATEGORY_1, &mut rng);
    for turn in 0..100 {
        let table = Table::of(&[Row::new(b'K', 200, 240), Row::new(b'L', 241, 300)]);
        let mut noise = BUILT_IN_IMAGE;
        rng.fill(&mut noise);
        let lent = image_with(2, table.rows(), &noise);
        let profile = if turn % 2 == 0 { usual(b'K', 240, 3) } else { usual(b'L', 241, 3) };
        let package = signer.package(&mut rng, &line_of(&profile));
        let mut both = Both::from(&CATEGORY_1, &store_with(&lent, &[]));
        assert_eq!(both.load_fast(&mut t, Sent { key: &signer.key, package: &package }, &Device::of(&profile)), 0);
        assert_eq!(both.image()[SLOTS..], lent);
    }
    t.finish(100, &[0]);
}
