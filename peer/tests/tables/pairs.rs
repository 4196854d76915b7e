//! Refusals of a load into a store with a table, each with each: the earlier wins.

use crate::{agree, is_letter, line_of, railway, store_with, usual, ONE_ROW};
use peer::archive::both::{Both, Sent, Signer};
use peer::archive::{Category, CATEGORIES};
use peer::line::Profile;
use peer::rng::Rng;
use peer::store::{Device, CAPACITY, SLOTS, STORE};
use peer::table::{Table, BUILT_IN_IMAGE};

/// What is stored before.
#[derive(Clone, Copy, Debug)]
enum Stock {
    Nothing,
    Older,
    Same,
    Full,
}

impl Stock {
    fn profiles(self, own: &Profile) -> Vec<Profile> {
        match self {
            Stock::Nothing => vec![],
            Stock::Older => vec![Profile { country: *b"XB", ..*own }, Profile { serial: 11, ..*own }],
            Stock::Same => vec![Profile { hertz: 60, ..*own }, *own],
            Stock::Full => (0..CAPACITY).map(|at| Profile { country: [b'Q', b'A' + at as u8], ..*own }).collect(),
        }
    }

    fn due(self) -> u8 {
        match self {
            Stock::Nothing | Stock::Older => 0,
            Stock::Same => 7,
            Stock::Full => 8,
        }
    }
}

/// The answer of a load with these faults, as the order of the refusals has it.
fn due(image: &[u8], profile: &Profile, device: &Device, sizes_are_right: bool, is_signed: bool, stock: Stock) -> u8 {
    let is_whole = image.len() == STORE;
    let table = if is_whole { image[SLOTS..].try_into().expect("a table") } else { BUILT_IN_IMAGE };
    if !is_letter(&table, device.class) || device.hertz != 50 {
        10
    } else if !is_whole || !sizes_are_right {
        1
    } else if !is_signed {
        4
    } else if !agree(&table, profile.class, profile.volts) {
        5
    } else if device.class != u32::from(profile.class) {
        6
    } else {
        stock.due()
    }
}

const STOCKS: [Stock; 4] = [Stock::Nothing, Stock::Older, Stock::Same, Stock::Full];
const LINES: [(u8, u32); 4] = [(b'R', 750), (b'D', 750), (b'B', 230), (b'Q', 230)];
const CLASSES: [u32; 7] = [82, 68, 66, 81, 69, 82 + 256, 0];

/// Every table and size of a store, what it holds, a line, and what a device is set to; at category 1 also keys of a
/// wrong size and signatures that do not hold.
fn pairs_at(category: &Category) {
    let (mut t, mut rng) = (category.tally("load, pairs of refusals under tables"), Rng::new(0x7061_6972));
    let signer = Signer::new(category, &mut rng);
    let tables = [railway().image(), BUILT_IN_IMAGE, Table::of(&ONE_ROW).image()];
    let posts = LINES.map(|(class, volts)| {
        let profile = usual(class, volts, 12);
        (profile, signer.package(&mut rng, &line_of(&profile)))
    });
    let spoils: &[(bool, bool)] = if category.number == 1 {
        &[(true, true), (false, true), (true, false), (false, false)]
    } else {
        &[(true, true)]
    };
    for (table, stock) in tables.iter().flat_map(|table| STOCKS.map(|stock| (table, stock))) {
        for (profile, package) in &posts {
            let whole = store_with(table, &stock.profiles(profile));
            for len in [STORE, STORE - 1, SLOTS, STORE + 1] {
                let image: Vec<u8> = whole.iter().copied().chain([0]).take(len).collect();
                for (class, hertz) in CLASSES.into_iter().flat_map(|class| [50, 51].map(|hertz| (class, hertz))) {
                    let device = Device { country: b"XA", class, hertz };
                    for &(sizes_are_right, is_signed) in spoils {
                        let (mut key, mut package) = (signer.key.clone(), package.clone());
                        if !sizes_are_right {
                            key.push(0);
                        }
                        if !is_signed {
                            package[category.sizes.signature() - 1] ^= 1;
                        }
                        let wanted = due(&image, profile, &device, sizes_are_right, is_signed, stock);
                        let mut both = Both::from(category, &image);
                        let sent = Sent { key: &key, package: &package };
                        let answer = both.load_fast(&mut t, sent, &device);
                        assert_eq!(answer, wanted, "{device:?} {stock:?} {len} {sizes_are_right} {is_signed}");
                    }
                }
            }
        }
    }
    let reached: &[u8] = if category.number == 1 { &[0, 1, 4, 5, 6, 7, 8, 10] } else { &[0, 1, 5, 6, 7, 8, 10] };
    t.finish(12 * 4 * 4 * 14 * spoils.len(), reached);
}

#[test]
fn pairs_of_refusals() {
    CATEGORIES.iter().for_each(pairs_at);
}
