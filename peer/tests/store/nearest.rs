//! The stored profile that is nearest to measured volts. Here in stores as loads make them; then in images that none
//! made, and the refusals.

mod images;
mod refusals;

use crate::both::{holding, placed, Both, Sent, Signer};
use peer::archive::{Category, CATEGORIES, CATEGORY_1};
use peer::harness::Tally;
use peer::line::cases::{by_length, other_hertz, valid};
use peer::line::{image, read_line, write_line, Profile, IMAGE, NOMINAL_HERTZ};
use peer::refusal::{BAD_DEVICE, NOT_STORED};
use peer::rng::Rng;
use peer::store::{Device, Measured, CAPACITY, SLOTS, STORE};
use peer::table::BUILT_IN;
use std::ops::RangeInclusive;

const LINE: &[u8] = b"GP1,XA,B,12,230,50,1150,100,800,1500,1500,100,-2500,100\n";

/// With four classes and both hertz these are as many triples as fit.
const PAIR: [&[u8; 2]; 2] = [b"XA", b"XB"];

/// Each of both countries with each hertz.
fn networks() -> impl Iterator<Item = (&'static [u8], u32)> {
    PAIR.into_iter().flat_map(|country| NOMINAL_HERTZ.map(|hertz| (&country[..], hertz)))
}

/// The line's profile at these volts and hertz, of the class that the volts have; where they have none it stays B.
fn at(volts: u32, hertz: u32) -> Profile {
    let class = BUILT_IN.class_of(volts).unwrap_or(b'B');
    Profile { volts, hertz, class, ..read_line(&BUILT_IN, LINE).expect("a line") }
}

fn xa(hertz: u32, volts: u32) -> Measured<'static> {
    Measured { country: b"XA", hertz, volts }
}

/// What is nearest among used slots, found in another way than the second program does: outward from the measured
/// volts, the lower side first, and each time from the first slot on. The line, or the refusal.
fn outward(slots: &[Profile], measured: &Measured) -> Result<Vec<u8>, u8> {
    if measured.volts > 2_000 {
        return Err(BAD_DEVICE);
    }
    let around = (0..=40).flat_map(|away| [measured.volts.checked_sub(away), Some(measured.volts + away)]);
    let fits = |slot: &&Profile| slot.country == measured.country && slot.hertz == measured.hertz;
    let of_volts = |volts: u32| slots.iter().filter(fits).find(|slot| slot.volts == volts);
    around.flatten().find_map(of_volts).ok_or(NOT_STORED).and_then(|profile| write_line(&BUILT_IN, profile))
}

/// What both find nearest among profiles that loads could have stored: a lookup for its class gives the same line.
fn found(both: &Both, t: &mut Tally, stored: &[Profile], measured: &Measured) -> Option<Profile> {
    let near = both.near(t, measured);
    assert_eq!(near, outward(stored, measured), "{measured:?}");
    let line = near.ok()?;
    let profile = read_line(&BUILT_IN, &line).expect("a line");
    assert_eq!(both.line(&Device::of(&profile)), line, "{measured:?}");
    Some(profile)
}

/// The same in other orders: turned, forwards and backwards. Of three these are all.
fn orders<T: Copy>(all: &[T]) -> Vec<Vec<T>> {
    let turned = |by: usize| [&all[by..], &all[..by]].concat();
    let backwards = |all: Vec<T>| all.into_iter().rev().collect();
    (0..all.len()).flat_map(|by| [turned(by), backwards(turned(by))]).collect()
}

/// The worked store: what is loaded, in every order, and what is then found.
fn worked_at(category: &Category) {
    let [mut t, mut loads] = ["nearest, worked cases", "load, for nearest"].map(|what| category.tally(what));
    let mut rng = Rng::new(14);
    let signer = Signer::new(category, &mut rng);
    let lines = [
        LINE,
        b"GP1,XA,C,5,300,50,1100,200,850,1500,1500,100,-2500,100\n",
        b"GP1,XA,B,1,240,60,1150,100,800,1500,1500,100,-2500,100\n",
    ];
    let posts = lines.map(|line| (read_line(&BUILT_IN, line).expect("a line"), signer.package(&mut rng, line)));
    let some = [(50, 237, 0), (50, 265, 0), (50, 266, 1), (50, 190, 0), (50, 340, 1), (60, 230, 2)];
    let none = [(50, 189), (50, 341), (50, 0), (50, 2_000)].map(|(hertz, volts)| (xa(hertz, volts), 9));
    let country = |country| Measured { country, ..xa(50, 230) };
    let others = [(country(b"XB"), 9), (xa(50, 2_001), 10), (xa(16, 230), 10), (country(b"xa"), 10)];
    for order in orders(&[0, 1, 2]) {
        let mut both = Both::empty(category);
        for (profile, package) in order.into_iter().map(|at: usize| &posts[at]) {
            assert_eq!(both.load_fast(&mut loads, Sent { key: &signer.key, package }, &Device::of(profile)), 0);
        }
        for (hertz, volts, wanted) in some {
            assert_eq!(both.near(&mut t, &xa(hertz, volts)), Ok(lines[wanted].to_vec()), "{hertz} {volts}");
            assert_eq!(found(&both, &mut t, &both.stored(), &xa(hertz, volts)), Some(posts[wanted].0));
        }
        for (measured, wanted) in none.into_iter().chain(others) {
            assert_eq!(both.near(&mut t, &measured), Err(wanted), "{measured:?}");
        }
    }
    loads.finish(18, &[0]);
    t.finish(120, &[0, 9, 10]);
}

#[test]
fn worked_cases() {
    CATEGORIES.iter().for_each(worked_at);
}

/// Nominal volts that a store has, each with the measured ones that find it; at all others the answer is 9. None is
/// within 40 volts of 0 to 59, as 100 are the lowest.
const STORES: [&[(u32, RangeInclusive<u32>)]; 5] = [
    &[(100, 60..=140), (180, 141..=220), (300, 260..=340), (1_000, 960..=1_040)],
    &[(120, 80..=150), (180, 151..=220), (260, 221..=300), (520, 480..=560)],
    &[(139, 99..=139), (140, 140..=180), (299, 259..=339), (600, 560..=640)],
    &[(100, 60..=125), (151, 126..=191), (261, 221..=301)],
    &[(519, 479..=519), (520, 520..=560)],
];

#[test]
fn every_measured_volts() {
    let mut t = Tally::new("nearest, every measured volts");
    for (store, hertz) in STORES.into_iter().flat_map(|store| NOMINAL_HERTZ.map(|hertz| (store, hertz))) {
        let profiles: Vec<Profile> = store.iter().map(|&(nominal, _)| at(nominal, hertz)).collect();
        for stored in orders(&profiles) {
            let both = Both::from(&CATEGORY_1, &holding(&stored));
            for volts in 0..=2_000 {
                let wanted = store.iter().position(|(_, near)| near.contains(&volts)).map(|at| profiles[at]);
                assert_eq!(found(&both, &mut t, &stored, &xa(hertz, volts)), wanted, "{volts}");
            }
            assert_eq!(both.near(&mut t, &xa(hertz, 2_001)), Err(10));
        }
    }
    t.finish(2 * 2_002 * 34, &[0, 9, 10]);
}

/// Nothing is near in the empty store.
#[test]
fn empty_stores() {
    let (mut t, both) = (Tally::new("nearest, an empty store"), Both::empty(&CATEGORY_1));
    for (country, hertz) in networks() {
        for volts in 0..=2_001 {
            let wanted = if volts > 2_000 { 10 } else { 9 };
            assert_eq!(both.near(&mut t, &Measured { country, hertz, volts }), Err(wanted), "{volts}");
        }
    }
    t.finish(4 * 2_002, &[9, 10]);
}

/// Each nominal volts alone: 40 volts away on both sides it is found, and 41 away it is not.
#[test]
fn ends_of_the_reach() {
    let mut t = Tally::new("nearest, ends of the reach");
    for (nominal, hertz) in (100..=1_000).flat_map(|nominal| NOMINAL_HERTZ.map(|hertz| (nominal, hertz))) {
        let profile = at(nominal, hertz);
        let both = Both::from(&CATEGORY_1, &placed(&[(nominal as usize % CAPACITY, profile)]));
        let measured = [nominal - 41, nominal - 40, nominal, nominal + 40, nominal + 41].map(|volts| xa(hertz, volts));
        let near = measured.map(|measured| found(&both, &mut t, &[profile], &measured));
        assert_eq!(near, [None, Some(profile), Some(profile), Some(profile), None], "{nominal}");
    }
    t.finish(2 * 5 * 901, &[0, 9]);
}

/// Two profiles on both sides of the end of a class, equally far from the volts between them: in both orders the lower
/// one is found, a volt below too, and a volt above the upper one.
#[test]
fn ties() {
    let mut t = Tally::new("nearest, ties");
    for (end, away) in [140, 260, 520].into_iter().flat_map(|end| (1..=40).map(move |away| (end, away))) {
        for volts in (end - 2 * away).max(100)..end {
            let [lower, upper] = [volts, volts + 2 * away].map(|volts| at(volts, 50));
            for stored in [[lower, upper], [upper, lower]] {
                let both = Both::from(&CATEGORY_1, &holding(&stored));
                let between = [volts + away - 1, volts + away, volts + away + 1];
                let near = between.map(|volts| found(&both, &mut t, &stored, &xa(50, volts)));
                assert_eq!(near, [lower, lower, upper].map(Some), "{volts} {away}");
            }
        }
    }
    t.finish(2 * 3 * 4_500, &[0]);
}

/// The other hertz and other countries are just at the measured volts, and do not count.
#[test]
fn others_are_nearer() {
    let (mut t, own) = (Tally::new("nearest, others are nearer"), at(230, 50));
    for volts in 140..=320 {
        let other = at(volts, 50);
        let countries = [*b"XB", *b"AX", *b"YA", *b"AA", *b"XZ"].map(|country| Profile { country, ..other });
        let others = [vec![at(volts, 60)], countries.to_vec()].concat();
        for stored in orders(&[others, vec![own]].concat()) {
            let both = Both::from(&CATEGORY_1, &holding(&stored));
            let near = found(&both, &mut t, &stored, &xa(50, volts));
            assert_eq!(near, (190..=270).contains(&volts).then_some(own), "{volts}");
            assert_eq!(found(&both, &mut t, &stored, &xa(60, volts)), Some(at(volts, 60)));
        }
    }
    t.finish(181 * 14 * 2, &[0, 9]);
}

/// Lines of every length of both kinds, from both ends of the reach.
#[test]
fn of_every_length() {
    let mut t = Tally::new("nearest, every length");
    for profile in [false, true].map(by_length).concat() {
        let both = Both::from(&CATEGORY_1, &holding(&[profile]));
        for volts in [profile.volts - 40, profile.volts, profile.volts + 40] {
            let measured = Measured { country: &profile.country, hertz: profile.hertz, volts };
            assert_eq!(found(&both, &mut t, &[profile], &measured), Some(profile));
        }
    }
    t.finish(3 * (31 + 36), &[0]);
}

/// A store that is filled by loads alone.
struct Loaded<'a> {
    both: Both,
    signer: &'a Signer,
    loads: Tally,
    near: Tally,
}

impl<'a> Loaded<'a> {
    fn new(category: &Category, signer: &'a Signer, what: &str) -> Loaded<'a> {
        let [loads, near] = ["load", "nearest"].map(|entry| category.tally(&format!("{entry}, {what}")));
        Loaded { both: Both::empty(category), signer, loads, near }
    }

    fn load(&mut self, (profile, package): &(Profile, Vec<u8>)) -> u8 {
        let sent = Sent { key: &self.signer.key, package };
        self.both.load(&mut self.loads, sent, &Device::of(profile), &|_, _, _| 0)
    }

    /// Asks for each country and hertz.
    fn ask(&mut self, volts: u32) {
        let stored = self.both.stored();
        for (country, hertz) in networks() {
            found(&self.both, &mut self.near, &stored, &Measured { country, hertz, volts });
        }
    }
}

/// Every one of these triples loaded; then every measured volts for each country and hertz.
fn full_at(category: &Category) {
    let mut rng = Rng::new(15);
    let signer = Signer::new(category, &mut rng);
    let mut loaded = Loaded::new(category, &signer, "a full store");
    for (class, volts) in [(b'A', 110), (b'B', 170), (b'C', 270), (b'D', 530)] {
        for (place, country) in (0..).zip(PAIR) {
            for (later, hertz) in (0..).zip(NOMINAL_HERTZ) {
                let profile = Profile { country: *country, ..at(volts + 10 * place + 5 * later, hertz) };
                assert_eq!(profile.class, class);
                assert_eq!(loaded.load(&(profile, signer.package_of(&mut rng, &profile))), 0);
            }
        }
    }
    assert_eq!(loaded.both.stored().len(), CAPACITY);
    (0..=2_000).for_each(|volts| loaded.ask(volts));
    loaded.loads.finish(16, &[0]);
    loaded.near.finish(4 * 2_001, &[0, 9]);
}

#[test]
fn full_stores() {
    CATEGORIES.iter().for_each(full_at);
}

/// Volts at which much is decided: about nominal ones and the ends of their reach, half way between two, or any.
fn some_volts(rng: &mut Rng, nominal: &[u32]) -> u32 {
    let [one, other] = [(); 2].map(|()| nominal[rng.below(nominal.len())]);
    let away = [0, 1, 2, 20, 39, 40, 41, 42][rng.below(8)];
    match rng.below(8) {
        0..=2 => one.saturating_sub(away),
        3..=4 => one.saturating_add(away),
        5 | 6 => ((u64::from(one) + u64::from(other)) / 2) as u32,
        _ => rng.below(2_001) as u32,
    }
}

/// Runs of 32 loads; after each it is asked for some measured volts.
fn runs_at(category: &Category, runs: usize) {
    let mut rng = Rng::new(0x6E65_6172);
    let signer = Signer::new(category, &mut rng);
    let post = |rng: &mut Rng, turn: usize| {
        let profile = Profile { country: *PAIR[turn % 2], serial: 1 + rng.below(6) as u32, ..valid(rng) };
        (profile, signer.package_of(rng, &profile))
    };
    let posts: Vec<_> = (0..100).map(|turn| post(&mut rng, turn)).collect();
    let mut loaded = Loaded::new(category, &signer, "runs of loads");
    for _ in 0..runs {
        loaded.both = Both::empty(category);
        for _ in 0..32 {
            loaded.load(&posts[rng.below(posts.len())]);
            let nominal: Vec<u32> = loaded.both.stored().iter().map(|profile| profile.volts).collect();
            (0..6).for_each(|_| loaded.ask(some_volts(&mut rng, &nominal)));
        }
    }
    loaded.loads.finish(32 * runs, &[0, 7]);
    loaded.near.finish(32 * 24 * runs, &[0, 9]);
}

#[test]
fn runs() {
    for (category, runs) in CATEGORIES.iter().zip([60, 12, 8]) {
        runs_at(category, runs);
    }
}

/// These profiles in any slots, and noise in the free ones.
fn scattered(rng: &mut Rng, profiles: &[Profile]) -> Vec<u8> {
    let (mut bytes, mut free) = (rng.bytes(SLOTS), (0..CAPACITY).collect::<Vec<usize>>());
    bytes.chunks_exact_mut(IMAGE).for_each(|slot| slot[0] = 0);
    for profile in profiles {
        let start = free.swap_remove(rng.below(free.len())) * IMAGE;
        bytes[start..start + IMAGE].copy_from_slice(&image(profile));
    }
    bytes.resize(STORE, 0);
    bytes
}

/// At most one profile of each triple of both countries.
fn some_profiles(rng: &mut Rng) -> Vec<Profile> {
    let mut all: Vec<Profile> = Vec::new();
    for _ in 0..1 + rng.below(32) {
        let next = Profile { country: *PAIR[rng.below(2)], ..valid(rng) };
        let key = |profile: &Profile| (profile.country, profile.class, profile.hertz);
        all.retain(|profile| key(profile) != key(&next));
        all.push(next);
    }
    all
}

/// Which slot holds what does not count in what loads leave: the same profiles in other slots give the same lines.
#[test]
fn in_any_slots() {
    let (mut t, mut rng) = (Tally::new("nearest, any slots"), Rng::new(0x736C_6F74));
    for _ in 0..3_000 {
        let stored = some_profiles(&mut rng);
        let both = [(); 2].map(|()| Both::from(&CATEGORY_1, &scattered(&mut rng, &stored)));
        let nominal: Vec<u32> = stored.iter().map(|profile| profile.volts).collect();
        for _ in 0..8 {
            let (volts, profile) = (some_volts(&mut rng, &nominal), stored[rng.below(stored.len())]);
            let hertz = if rng.below(8) == 0 { other_hertz(profile.hertz) } else { profile.hertz };
            let measured = Measured { country: &profile.country, hertz, volts };
            let [one, other] = both.each_ref().map(|both| found(both, &mut t, &stored, &measured));
            assert_eq!(one, other, "{measured:?}");
        }
    }
    t.finish(48_000, &[0, 9]);
}
