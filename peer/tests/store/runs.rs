//! Runs of random calls on one store.

use crate::both::{devices, find_all, Both, Sent, Signer, COUNTRIES, DEVICES};
use peer::archive::{Category, CATEGORIES};
use peer::harness::Tally;
use peer::line::cases::{other_hertz, valid, NO_HERTZ};
use peer::line::{image, Profile, IMAGE, LONGEST};
use peer::rng::Rng;
use peer::scheme;
use peer::sizes::Sizes;
use peer::store::{package_lengths, Device, SLOTS, STORE};
use peer::table::BUILT_IN;

/// A package with the profile that was signed, and what the clear checker says of it under the key.
struct Post {
    profile: Profile,
    key: Vec<u8>,
    package: Vec<u8>,
    due: u8,
}

/// A profile for one of the few countries, with a serial that comes again soon.
fn some_profile(rng: &mut Rng) -> Profile {
    let country = *COUNTRIES[rng.below(COUNTRIES.len())];
    Profile { country, serial: 1 + rng.below(6) as u32, ..valid(rng) }
}

/// A package, now and then with a signed line that breaks a rule or has the tag of the other kind, damaged, or
/// under a key that is another one or none.
fn post(s: &Sizes, rng: &mut Rng, signer: &Signer, other: &Signer, turn: usize) -> Post {
    let (profile, mut key) = (some_profile(rng), signer.key.clone());
    let mut package = signer.package_of(rng, &profile);
    match turn % 24 {
        0 => package = signer.package(rng, &[b'7'; 50]),
        1 => package[rng.below(s.signature())] ^= 1 << rng.below(8),
        2 => package[rng.below(s.signature())] = 0xFF,
        3 => *package.last_mut().expect("a line") = b'9',
        4 => key.clone_from(&other.key),
        5 => key[s.key_seed + rng.below(s.packed_syndrome())] = 0xFF,
        6 => {
            let mut line = package.split_off(s.signature());
            line[2] ^= b'1' ^ b'2';
            package = signer.package(rng, &line);
        }
        _ => (),
    }
    let (signature, line) = package.split_at(s.signature());
    let due = scheme::verify(s, &key, line, signature);
    Post { profile, key, package, due }
}

/// Countries and classes that no device has, as `NO_HERTZ` are hertz that none has.
const NO_COUNTRIES: [&[u8]; 7] = [b"xA", b"X[", b"@A", b"X", b"", b"XAB", b"XAXA"];
const NO_CLASSES: [u32; 6] = [0, 64, 69, 65 + 256, 65 + 65_536, u32::MAX];

/// A device with a setting that there is not.
fn no_device<'a>(rng: &mut Rng, device: Device<'a>) -> Device<'a> {
    match rng.below(3) {
        0 => Device { country: NO_COUNTRIES[rng.below(NO_COUNTRIES.len())], ..device },
        1 => Device { class: NO_CLASSES[rng.below(NO_CLASSES.len())], ..device },
        _ => Device { hertz: NO_HERTZ[rng.below(NO_HERTZ.len())], ..device },
    }
}

/// An image with some triples in some slots and noise in the free ones.
fn scattered(rng: &mut Rng) -> Vec<u8> {
    let (mut bytes, mut triples) = (rng.bytes(SLOTS), devices().collect::<Vec<_>>());
    let fullness = 1 + rng.below(8);
    for slot in bytes.chunks_exact_mut(IMAGE) {
        slot[0] = 0;
        if rng.below(8) < fullness {
            let Device { country, class, hertz } = triples.swap_remove(rng.below(triples.len()));
            let volts = [100, 259, 300, 1_000][class as usize - 65];
            let class = BUILT_IN.class_of(volts).expect("100 to 1000");
            let country = country.try_into().expect("two letters");
            slot.copy_from_slice(&image(&Profile { country, class, volts, hertz, ..some_profile(rng) }));
        }
    }
    bytes.resize(STORE, 0);
    bytes
}

struct Run<'a> {
    sizes: Sizes,
    rng: &'a mut Rng,
    posts: &'a [Post],
    both: Both,
}

impl Run<'_> {
    fn load(&mut self, t: &mut Tally) {
        let Post { profile, key, package, due } = &self.posts[self.rng.below(self.posts.len())];
        let (mut key, mut package, own) = (key.clone(), package.clone(), Device::of(profile));
        let device = match self.rng.below(16) {
            0 => Device { country: COUNTRIES[self.rng.below(COUNTRIES.len())], ..own },
            1 => Device { class: 65 + self.rng.below(4) as u32, ..own },
            2 => Device { hertz: other_hertz(own.hertz), ..own },
            3 => no_device(self.rng, own),
            _ => own,
        };
        let lengths = package_lengths(&self.sizes);
        match self.rng.below(30) {
            0 => package.truncate(self.rng.below(*lengths.start())),
            1 => package.resize(lengths.end() + 1 + self.rng.below(100), b'\n'),
            2 => key.truncate(self.rng.below(self.sizes.key())),
            3 => key.push(0),
            _ => (),
        }
        self.both.load(t, Sent { key: &key, package: &package }, &device, &|_, _, _| *due);
    }

    fn lookup(&mut self, t: &mut Tally) {
        let mut device = devices().nth(self.rng.below(DEVICES)).expect("one of them");
        if self.rng.below(3) == 0 {
            device = no_device(self.rng, device);
        }
        let room = if self.rng.below(2) == 0 { self.rng.below(100) } else { LONGEST };
        self.both.lookup(t, &device, room);
    }
}

/// Runs of 50 calls, half of them from the empty store. After each call every triple is looked up.
fn runs_at(category: &Category, runs: usize, posts: usize) {
    let [mut loads, mut lookups, mut finds] =
        ["load, runs of calls", "lookup, runs of calls", "lookup, each triple after each call"]
            .map(|what| category.tally(what));
    let (sizes, mut rng) = (category.sizes, Rng::new(0x7275_6E73));
    let (signer, other) = (Signer::new(category, &mut rng), Signer::new(category, &mut rng));
    let posts: Vec<Post> = (0..posts).map(|turn| post(&sizes, &mut rng, &signer, &other, turn)).collect();
    for turn in 0..runs {
        let both = if turn % 2 == 0 { Both::empty(category) } else { Both::from(category, &scattered(&mut rng)) };
        let mut run = Run { sizes, rng: &mut rng, posts: &posts, both };
        for _ in 0..50 {
            if run.rng.below(10) < 9 {
                run.load(&mut loads);
            } else {
                run.lookup(&mut lookups);
            }
            find_all(&run.both, &mut finds);
        }
    }
    loads.finish(40 * runs, &[0, 1, 3, 4, 5, 6, 7, 8, 10]);
    lookups.finish(4 * runs, &[0, 1, 9, 10]);
    finds.finish(DEVICES * 50 * runs, &[0, 9]);
}

#[test]
fn runs() {
    for (category, (runs, posts)) in CATEGORIES.iter().zip([(500, 400), (60, 120), (40, 96)]) {
        runs_at(category, runs, posts);
    }
}
