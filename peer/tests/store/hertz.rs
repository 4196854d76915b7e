//! Both hertz of one country and class: each has a profile of its own, and is a device of its own.

use crate::both::{holding, placed, Both, Sent, Signer};
use crate::held::Held;
use peer::archive::{Category, CATEGORIES, CATEGORY_1};
use peer::harness::Tally;
use peer::line::cases::{other_hertz, valid, NO_HERTZ};
use peer::line::{Profile, NOMINAL_HERTZ};
use peer::rng::Rng;
use peer::store::{Device, CAPACITY, STORE};

/// The profile of one country and class with this serial, at any hertz.
fn at(hertz: u32, serial: u32) -> Profile {
    Profile { country: *b"XA", hertz, serial, ..valid(&mut Rng::new(13)) }
}

/// A lookup for this country and class, at any hertz.
fn find(held: &mut Held, hertz: u32) -> u8 {
    held.find(&Device::of(&at(hertz, 1)))
}

/// The place of hertz among both.
fn place(hertz: u32) -> usize {
    usize::from(hertz == NOMINAL_HERTZ[1])
}

/// An image with `others` triples of other countries, and these profiles after them.
fn beside(others: usize, profiles: &[Profile]) -> Vec<u8> {
    let other = |at: usize, profile: Profile| Profile { country: [b'Q', b'A' + at as u8], ..profile };
    let others = (0..others).map(|slot| other(slot, at(NOMINAL_HERTZ[slot % 2], 1)));
    holding(&others.chain(profiles.iter().copied()).collect::<Vec<_>>())
}

/// Hertz, a serial, and what loading it answers.
type Step = (u32, u32, u8);

/// Loads profiles in this order. After each the device of each hertz finds what it had or what was loaded for it, and
/// nothing else.
fn replay(held: &mut Held, mut stored: [Option<Profile>; 2], steps: &[Step]) {
    for &(hertz, serial, wanted) in steps {
        assert_eq!(held.put(&at(hertz, serial)), wanted, "{hertz} {serial}");
        if wanted == 0 {
            stored[place(hertz)] = Some(at(hertz, serial));
        }
        for hertz in NOMINAL_HERTZ {
            match stored[place(hertz)] {
                Some(profile) => held.demand(&profile),
                None => assert_eq!(find(held, hertz), 9),
            }
        }
    }
}

/// Of each hertz only its own serials count: one that is below the other's is accepted, and one that is above the
/// other's alone is refused.
const STEPS: [Step; 16] = [
    (50, 12, 0),
    (60, 1, 0),
    (60, 1, 7),
    (50, 12, 7),
    (50, 2, 7),
    (60, 2, 0),
    (60, 11, 0),
    (50, 12, 7),
    (50, 13, 0),
    (60, 11, 7),
    (60, u32::MAX, 0),
    (50, 13, 7),
    (50, 14, 0),
    (60, u32::MAX, 7),
    (50, u32::MAX, 0),
    (50, u32::MAX, 7),
];

#[test]
fn serials_of_each() {
    for category in &CATEGORIES {
        let mut held = Held::new(category, "serials of both hertz", &[0; STORE]);
        replay(&mut held, [None; 2], &STEPS);
        held.finish((16, &[0, 7]), (32, &[0, 9]));
    }
}

/// Both hertz of one country and class in a run: the last serial that was loaded for each.
struct Run<'a> {
    both: Both,
    last: [u32; 2],
    loads: &'a mut Tally,
    finds: &'a mut Tally,
}

impl Run<'_> {
    /// Loads a package; whether its serial was below that of the other hertz, and it was accepted all the same.
    fn load(&mut self, profile: &Profile, sent: Sent) -> bool {
        let [own, other] = [profile.hertz, other_hertz(profile.hertz)].map(place);
        let wanted = if profile.serial > self.last[own] { 0 } else { 7 };
        let answer = self.both.load(self.loads, sent, &Device::of(profile), &|_, _, _| 0);
        assert_eq!(answer, wanted, "{} after {:?}", profile.serial, self.last);
        if answer == 0 {
            self.last[own] = profile.serial;
        }
        answer == 0 && profile.serial < self.last[other]
    }

    /// Looks both up: each has its own last serial, or nothing.
    fn find(&mut self) {
        for (hertz, serial) in NOMINAL_HERTZ.into_iter().zip(self.last) {
            let stored = at(hertz, serial);
            let answer = self.both.find(self.finds, &Device::of(&stored));
            assert_eq!(answer, if serial == 0 { 9 } else { 0 }, "{hertz} {:?}", self.last);
            assert_eq!(self.both.stored().contains(&stored), serial > 0, "{hertz} {:?}", self.last);
        }
    }
}

/// Runs of 24 loads of any of both hertz and eight serials, half of them in a store with room for just these two.
fn runs_at(category: &Category, runs: usize) {
    let [mut loads, mut finds] = ["load, runs of both hertz", "lookup, runs of both hertz"].map(|s| category.tally(s));
    let (mut rng, mut below) = (Rng::new(0x6865_7274), 0);
    let signer = Signer::new(category, &mut rng);
    let profiles = NOMINAL_HERTZ.into_iter().flat_map(|hertz| (1..=8).map(move |serial| at(hertz, serial)));
    let posts: Vec<_> = profiles.map(|profile| (profile, signer.package_of(&mut rng, &profile))).collect();
    for turn in 0..runs {
        let both = Both::from(category, &beside(turn % 2 * (CAPACITY - 2), &[]));
        let mut run = Run { both, last: [0; 2], loads: &mut loads, finds: &mut finds };
        for _ in 0..24 {
            let (profile, package) = &posts[rng.below(posts.len())];
            below += usize::from(run.load(profile, Sent { key: &signer.key, package }));
            run.find();
        }
    }
    println!("{}: {below} were accepted below the other hertz' serial", category.named("load, runs of both hertz"));
    assert!(below > runs / 2, "{below}");
    loads.finish(24 * runs, &[0, 7]);
    finds.finish(48 * runs, &[0, 9]);
}

#[test]
fn runs() {
    for (category, runs) in CATEGORIES.iter().zip([60, 16, 12]) {
        runs_at(category, runs);
    }
}

/// 16 triples: of 16 countries at one of both hertz each, or of 8 countries at both.
fn sixteen(with_both: bool) -> Vec<Profile> {
    let country = |slot: usize| [b'Q', b'A' + if with_both { slot / 2 } else { slot } as u8];
    (0..16).map(|slot| Profile { country: country(slot), ..at(NOMINAL_HERTZ[slot % 2], 1) }).collect()
}

/// No late triple finds room in a full store, and each that is stored is replaced by a newer profile; then once more.
fn seventeenth_at(category: &Category, mut all: Vec<Profile>, late: &[Profile]) {
    let mut held = Held::new(category, "a 17th triple", &[0; STORE]);
    all.iter().for_each(|profile| assert_eq!(held.put(profile), 0));
    for serial in [2, 3] {
        for profile in late {
            assert_eq!((held.put(profile), held.find(&Device::of(profile))), (8, 9));
        }
        for profile in &mut all {
            profile.serial = serial;
            assert_eq!(held.put(profile), 0);
        }
        all.iter().for_each(|profile| held.demand(profile));
    }
    held.finish((48 + 2 * late.len(), &[0, 8]), (32 + 2 * late.len(), &[0, 9]));
}

/// The late ones are of a new country, and then the other hertz of each country that is stored.
#[test]
fn a_seventeenth_triple() {
    let other = |profile: &Profile| Profile { hertz: other_hertz(profile.hertz), serial: u32::MAX, ..*profile };
    let others: Vec<Profile> = sixteen(false).iter().map(other).collect();
    for category in &CATEGORIES {
        seventeenth_at(category, sixteen(true), &NOMINAL_HERTZ.map(|hertz| at(hertz, u32::MAX)));
        seventeenth_at(category, sixteen(false), &others);
    }
}

/// A package for one hertz, on a device of the other: 6, whatever is stored and whatever its own device answers.
#[test]
fn for_the_other_device() {
    for category in &CATEGORIES {
        let mut held = Held::new(category, "a device of the other hertz", &[0; STORE]);
        for hertz in NOMINAL_HERTZ {
            let [older, same, other] = [at(hertz, 4), at(hertz, 5), at(other_hertz(hertz), 9)];
            let own = Device::of(&same);
            let few = [(0, vec![], 0), (0, vec![older], 0), (0, vec![other], 0), (0, vec![other, same], 7)];
            let full = [(16, vec![], 8), (15, vec![other], 8), (15, vec![same], 7), (14, vec![other, older], 0)];
            for (others, stored, wanted) in few.into_iter().chain(full) {
                held.hold(&beside(others, &stored));
                assert_eq!(held.put_on(&same, &Device { hertz: other_hertz(hertz), ..own }), 6, "{stored:?}");
                assert_eq!(find(&mut held, other_hertz(hertz)), if stored.contains(&other) { 0 } else { 9 });
                assert_eq!(held.put(&same), wanted, "{stored:?}");
            }
        }
        held.finish((32, &[0, 6, 7, 8]), (16, &[0, 9]));
    }
}

/// Hertz that no device has are 10, also where a slot has just these. Among them are the numbers that differ from 50
/// or 60 in one bit.
#[test]
fn of_no_device() {
    let flipped = NOMINAL_HERTZ.into_iter().flat_map(|hertz| (0..32).map(move |bit| hertz ^ 1 << bit));
    let numbers: Vec<u32> = NO_HERTZ.into_iter().chain(flipped).collect();
    for category in &CATEGORIES {
        let mut held = Held::new(category, "hertz of no device", &[0; STORE]);
        for &hertz in &numbers {
            held.hold(&placed(&[(1, at(hertz, 5)), (4, at(50, 5)), (5, at(60, 5))]));
            for of_package in NOMINAL_HERTZ {
                let profile = at(of_package, 6);
                assert_eq!(held.put_on(&profile, &Device { hertz, ..Device::of(&profile) }), 10, "{hertz}");
            }
            assert_eq!(find(&mut held, hertz), 10, "{hertz}");
        }
        held.finish((158, &[10]), (79, &[10]));
    }
}

/// Both hertz with each byte of the number changed to each value.
fn changed_bytes() -> impl Iterator<Item = u32> {
    let with = |hertz: u32, at: usize, byte: u8| {
        let mut bytes = hertz.to_le_bytes();
        bytes[at] = byte;
        u32::from_le_bytes(bytes)
    };
    let of = move |hertz| (0..4).flat_map(move |at| (0..=255).map(move |byte| with(hertz, at, byte)));
    NOMINAL_HERTZ.into_iter().flat_map(of)
}

/// A slot is found by its very hertz: all four bytes of the number count.
#[test]
fn found_by_each_byte() {
    let mut t = Tally::new("lookup, one byte of the hertz");
    for stored in changed_bytes() {
        for slot in [0, 7, 15] {
            let both = Both::from(&CATEGORY_1, &placed(&[(slot, at(stored, 5))]));
            for asked in NOMINAL_HERTZ {
                let wanted = if stored == asked { 0 } else { 9 };
                assert_eq!(both.find(&mut t, &Device::of(&at(asked, 1))), wanted, "{asked} of {stored}");
            }
        }
    }
    t.finish(12_288, &[0, 9]);
}

/// A slot whose hertz differ from the package's in one byte is another triple: its serial does not count, it is not
/// replaced, and in a full store it takes the room.
#[test]
fn loaded_by_each_byte() {
    let near = [1, 0x80, 0xFF].into_iter().flat_map(|change: u32| [0, 8, 16, 24].map(|shift| change << shift));
    let near: Vec<Profile> = near.map(|change| at(50 ^ change, u32::MAX)).collect();
    for category in &CATEGORIES {
        let mut held = Held::new(category, "one byte of the hertz", &[0; STORE]);
        for &near in &near {
            let [older, same] = [4, 5].map(|serial| at(50, serial));
            let few = [(0, vec![near], 0), (0, vec![near, older], 0), (0, vec![near, same], 7)];
            let full = [(15, vec![near], 8), (14, vec![near, older], 0), (14, vec![near, same], 7)];
            for (others, stored, wanted) in few.into_iter().chain(full) {
                held.hold(&beside(others, &stored));
                assert_eq!(held.put(&at(50, 5)), wanted, "{} {others}", near.hertz);
                assert_eq!(find(&mut held, 50), if wanted == 8 { 9 } else { 0 }, "{} {others}", near.hertz);
            }
        }
        held.finish((72, &[0, 7, 8]), (72, &[0, 9]));
    }
}

/// A triple that stands in several slots: the first counts, whatever serials the others have, and a load replaces it
/// alone. Slots of the other hertz stand between them.
#[test]
fn in_several_slots() {
    let few = [(2, at(60, 9)), (3, at(50, 5)), (6, at(50, 2)), (9, at(50, 20)), (12, at(60, 1))];
    let all: Vec<_> = (0..CAPACITY).map(|slot| (slot, at(NOMINAL_HERTZ[slot % 2], 1 + slot as u32))).collect();
    for category in &CATEGORIES {
        let mut held = Held::new(category, "one triple in several slots", &placed(&few));
        let steps = [(50, 3, 7), (50, 5, 7), (50, 6, 0), (60, 9, 7), (60, 2, 7), (60, 10, 0), (50, 20, 0), (50, 20, 7)];
        replay(&mut held, [Some(at(50, 5)), Some(at(60, 9))], &steps);
        held.hold(&placed(&all));
        let steps =
            [(50, 1, 7), (60, 2, 7), (50, 2, 0), (60, 3, 0), (50, 15, 0), (60, 15, 0), (50, 16, 0), (60, 15, 7)];
        replay(&mut held, [Some(at(50, 1)), Some(at(60, 2))], &steps);
        held.finish((16, &[0, 7]), (32, &[0]));
    }
}
