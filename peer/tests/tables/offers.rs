//! Files offered to stores: taken while nothing is stored, and else refused.

use crate::{is_letter, slots_mut, sound_tables, store_with, usual, xa};
use peer::archive::both::Both;
use peer::archive::CATEGORY_1;
use peer::harness::{Tally, LEAST};
use peer::rng::Rng;
use peer::store::{CAPACITY, SLOTS, STORE};
use peer::table::cases::{any_file, any_image, file_of, sound, LISTED, RAILWAY};
use peer::table::{Table, BUILT_IN_IMAGE};

/// A store of any bytes that holds no profile.
fn free(rng: &mut Rng) -> Vec<u8> {
    let mut bytes = rng.bytes(STORE);
    slots_mut(&mut bytes).for_each(|slot| slot[0] = 0);
    bytes
}

/// Each file to stores that hold no profile, of zeros and of any bytes, and to stores with a profile in each slot: 13
/// before 14.
#[test]
fn files_written_by_hand() {
    let (mut t, mut rng) = (Tally::new("load_table, files written by hand"), Rng::new(0x6861_6E64));
    for (name, file, is_sound) in LISTED {
        for image in [vec![0; STORE], free(&mut rng), free(&mut rng)] {
            let answer = Both::from(&CATEGORY_1, &image).load_table(&mut t, file.as_bytes());
            assert_eq!(answer, if is_sound { 0 } else { 13 }, "{name}");
            for (slot, mark) in (0..CAPACITY).flat_map(|slot| [1, 2, 0x80, 0xFF].map(|mark| (slot, mark))) {
                let mut used = image.clone();
                used[slot * 76] = mark;
                let answer = Both::from(&CATEGORY_1, &used).load_table(&mut t, file.as_bytes());
                assert_eq!(answer, if is_sound { 14 } else { 13 }, "{name} {slot}");
            }
        }
    }
    t.finish(LISTED.len() * 3 * 65, &[0, 13, 14]);
}

/// The first byte of a slot decides whether a profile is stored, with each value, and no other byte does.
#[test]
fn every_mark() {
    let mut t = Tally::new("load_table, marks of slots");
    for (slot, mark) in (0..CAPACITY).flat_map(|slot| (0..=255).map(move |mark| (slot, mark))) {
        let mut bytes = vec![0xFF; STORE];
        slots_mut(&mut bytes).for_each(|slot| slot[0] = 0);
        bytes[slot * 76] = mark;
        let mut both = Both::from(&CATEGORY_1, &bytes);
        assert_eq!(both.load_table(&mut t, b"E,99,199\n"), 13);
        assert_eq!(both.load_table(&mut t, RAILWAY.as_bytes()), if mark == 0 { 0 } else { 14 }, "{slot} {mark}");
    }
    for at in (0..STORE).filter(|at| *at >= SLOTS || at % 76 != 0) {
        let mut bytes = vec![0; STORE];
        bytes[at] = 1;
        assert_eq!(Both::from(&CATEGORY_1, &bytes).load_table(&mut t, RAILWAY.as_bytes()), 0, "{at}");
    }
    t.finish(16 * 256 * 2 + STORE - 16, &[0, 13, 14]);
}

/// Every length of a store up to twice the right one: only one is right, whatever is offered and whatever is stored.
#[test]
fn sizes() {
    let mut t = Tally::new("load_table, sizes");
    let [empty, stocked] =
        [vec![], vec![usual(b'B', 230, 12)]].map(|held| store_with(&BUILT_IN_IMAGE, &held).repeat(2));
    for len in 0..=2 * STORE {
        for (image, due) in [(&empty, 0), (&stocked, 14)] {
            let mut both = Both::from(&CATEGORY_1, &image[..len]);
            assert_eq!(both.load_table(&mut t, b"E,100,199"), if len == STORE { 13 } else { 1 }, "{len}");
            assert_eq!(both.load_table(&mut t, RAILWAY.as_bytes()), if len == STORE { due } else { 1 }, "{len}");
        }
    }
    t.finish(4 * 3_065, &[0, 1, 13, 14]);
}

/// One table after the other in one store: the last that was taken counts. Broken ones between them change nothing.
#[test]
fn replaced() {
    let [mut t, mut finds] = ["load_table, replaced", "lookup, replaced tables"].map(Tally::new);
    let mut rng = Rng::new(0x7265_706C);
    for _ in 0..300 {
        let mut both = Both::from(&CATEGORY_1, &free(&mut rng));
        for _ in 0..20 {
            let (file, old) = (any_file(&mut rng), both.image()[SLOTS..].to_vec());
            let answer = both.load_table(&mut t, &file);
            if answer == 13 {
                assert_eq!(both.image()[SLOTS..], old);
            }
            let table = both.image()[SLOTS..].try_into().expect("a table");
            for class in [65, 66, 69, 77, 90, 91, rng.below(256) as u32] {
                let wanted = if is_letter(&table, class) { 9 } else { 10 };
                assert_eq!(both.find(&mut finds, &xa(class)), wanted, "{class}");
            }
        }
    }
    t.finish(6_000, &[0, 13]);
    finds.finish(42_000, &[9, 10]);
}

/// What is written is what reading the file writes, and the tables of a test in turns.
#[test]
fn as_reading() {
    let mut t = Tally::new("load_table, as reading");
    let (mut both, mut rng) = (Both::empty(&CATEGORY_1), Rng::new(0x6173_7265));
    let drawn: Vec<Table> = (0..500).map(|_| sound(&mut rng)).collect();
    for table in sound_tables()[1..].iter().chain(&drawn) {
        assert_eq!(both.load_table(&mut t, &file_of(table.rows())), 0);
        assert_eq!(both.image()[SLOTS..], table.image());
        assert_eq!(peer::store::table_of(both.image()), *table);
    }
    t.finish(505, &[0]);
}

/// Any files for any stores: with some slots used or none, any table before, and now and then a wrong size.
#[test]
fn any_offers() {
    let (mut t, mut rng) = (Tally::new("load_table"), Rng::new(0x6F66_6665));
    while t.inputs() < LEAST {
        let mut image = free(&mut rng);
        image[SLOTS..].copy_from_slice(&any_image(&mut rng));
        let used = rng.below(3) * rng.below(4);
        (0..used).for_each(|_| image[76 * rng.below(CAPACITY)] = 1 + rng.below(255) as u8);
        if rng.below(16) == 0 {
            image.resize([0, SLOTS, STORE - 1, STORE + 1, rng.below(2 * STORE)][rng.below(5)], 0);
        }
        Both::from(&CATEGORY_1, &image).load_table(&mut t, &any_file(&mut rng));
    }
    t.finish(LEAST, &[0, 1, 13, 14]);
}
