//! The store as a map, and a package that loads.

mod tables;

use super::*;
use crate::line::cases::{other_hertz, some_rate, valid, NO_HERTZ};
use crate::line::RATE;
use crate::rng::Rng;
use crate::sizes::CATEGORIES;
use crate::table::{BUILT_IN, BUILT_IN_IMAGE};

impl Store {
    /// A store with these profiles, and the built-in classes.
    pub fn holding(profiles: &[Profile]) -> Store {
        Store { profiles: profiles.to_vec(), table: Table::default() }
    }
}

fn profile(country: &[u8; 2], serial: u32) -> Profile {
    Profile { country: *country, serial, ..valid(&mut Rng::new(40)) }
}

#[test]
fn a_greater_serial_replaces() {
    let (mut store, p) = (Store::default(), profile(b"XA", 12));
    assert_eq!(store.lookup(&Device::of(&p)), Err(9));
    assert_eq!(store.put(p, &Device::of(&p)), Ok(()));
    assert_eq!(store.put(p, &Device::of(&p)), Err(7));
    let next = Profile { serial: 13, ..p };
    assert_eq!(store.put(next, &Device::of(&p)), Ok(()));
    assert_eq!(store.lookup(&Device::of(&p)), Ok(next));
    assert_eq!(store.sorted(), [next]);
}

/// The same for the other hertz.
fn other(p: &Profile, serial: u32) -> Profile {
    Profile { hertz: other_hertz(p.hertz), serial, ..*p }
}

/// Both hertz of one country and class are stored, and each goes by its own serials.
#[test]
fn both_hertz_side_by_side() {
    let (mut store, p) = (Store::default(), profile(b"XA", 12));
    let (lower, newer) = (other(&p, 1), other(&p, 2));
    assert_eq!(store.put(p, &Device::of(&p)), Ok(()));
    assert_eq!(store.lookup(&Device::of(&lower)), Err(9));
    for (next, wanted) in [(lower, Ok(())), (lower, Err(7)), (p, Err(7)), (newer, Ok(())), (lower, Err(7))] {
        assert_eq!(store.put(next, &Device::of(&next)), wanted);
    }
    assert_eq!([p, newer].map(|held| store.lookup(&Device::of(&held))), [Ok(p), Ok(newer)]);
    assert_eq!(Store::from_image(&store.image()).sorted(), store.sorted());
    assert_eq!(store.sorted().len(), 2);
}

/// A profile with a rate point replaces one without, and the reverse: the serial alone decides.
#[test]
fn a_rate_point_comes_and_goes() {
    let (mut store, rate) = (Store::default(), Some(some_rate(&mut Rng::new(42))));
    for (serial, rate, wanted) in
        [(12, None, Ok(())), (12, rate, Err(7)), (13, rate, Ok(())), (13, None, Err(7)), (14, None, Ok(()))]
    {
        let (p, held) = (Profile { rate, ..profile(b"XA", serial) }, store.sorted());
        assert_eq!(store.put(p, &Device::of(&p)), wanted);
        assert_eq!(store.sorted(), if wanted.is_ok() { vec![p] } else { held });
        assert_eq!(Store::from_image(&store.image()).sorted(), store.sorted());
    }
    assert!(store.image()[RATE..IMAGE].iter().all(|&byte| byte == 0));
}

#[test]
fn a_seventeenth_triple_has_no_room() {
    let mut store = Store::default();
    for letter in b'A'..b'A' + 16 {
        let p = profile(&[b'X', letter], 1);
        assert_eq!(store.put(p, &Device::of(&p)), Ok(()));
    }
    for p in [profile(b"YA", 1), other(&profile(b"XC", 1), 9)] {
        assert_eq!(store.put(p, &Device::of(&p)), Err(8));
    }
    let newer = profile(b"XC", 2);
    assert_eq!(store.put(newer, &Device::of(&newer)), Ok(()));
    assert_eq!(Store::from_image(&store.image()).sorted(), store.sorted());
}

#[test]
fn any_byte_but_0_marks_a_slot_and_the_first_of_a_triple_counts() {
    let (first, second) = (profile(b"XA", 3), profile(b"XA", 9));
    let mut bytes = Store::holding(&[profile(b"XB", 1), first, second]).image();
    (bytes[0], bytes[IMAGE]) = (0, 0x80);
    let mut store = Store::from_image(&bytes);
    assert_eq!(store.lookup(&Device::of(&first)), Ok(first));
    assert_eq!(store.put(first, &Device::of(&first)), Err(7));
    let newer = profile(b"XA", 4);
    assert_eq!(store.put(newer, &Device::of(&first)), Ok(()));
    assert_eq!(store.sorted(), [newer, second]);
    assert_eq!(store.lookup(&Device::of(&first)), Ok(newer));
}

/// The whole number counts: one whose other bytes differ is no hertz of the triple.
#[test]
fn a_slot_with_other_hertz_is_another_triple() {
    let p = profile(b"XA", 3);
    for hertz in NO_HERTZ.into_iter().chain([other_hertz(p.hertz)]) {
        let old = Store::holding(&[Profile { hertz, serial: 9, ..p }]).image();
        let mut store = Store::from_image(&old);
        assert_eq!(store.lookup(&Device::of(&p)), Err(9), "{hertz}");
        assert_eq!(store.put(p, &Device::of(&p)), Ok(()), "{hertz}");
        assert!(wrote_one_slot(&old, &store.image(), &p), "{hertz}");
        assert!(!wrote_one_slot(&old, &Store::holding(&[p]).image(), &p), "{hertz}");
    }
}

#[test]
fn one_slot_is_the_triples_or_a_free_one() {
    let (a, b, newer) = (profile(b"XA", 3), profile(b"XB", 9), profile(b"XB", 10));
    let old = Store::holding(&[a, b, b]).image();
    let with = |slots: &[usize], p: &Profile| {
        let mut new = old.clone();
        for slot in slots {
            new[slot * IMAGE..(slot + 1) * IMAGE].copy_from_slice(&image(p));
        }
        wrote_one_slot(&old, &new, p)
    };
    assert!(with(&[1], &newer));
    for slots in [&[][..], &[0], &[2], &[3], &[1, 2], &[1, 3]] {
        assert!(!with(slots, &newer), "{slots:?}");
    }
    let other = profile(b"XC", 1);
    assert!(with(&[3], &other) && with(&[15], &other));
    for slots in [&[][..], &[0], &[1], &[2], &[3, 4]] {
        assert!(!with(slots, &other), "{slots:?}");
    }
}

#[test]
fn another_device_is_refused() {
    let (mut store, p) = (Store::default(), profile(b"XA", 1));
    let own = Device::of(&p);
    let others = [
        Device { country: b"XB", ..own },
        Device { country: b"XAX", ..own },
        Device { class: own.class ^ 3, ..own },
        Device { hertz: other_hertz(p.hertz), ..own },
        Device { hertz: p.hertz + 65_536, ..own },
    ];
    for device in others {
        assert_eq!(store.put(p, &device), Err(6), "{device:?}");
    }
    let countries = [&b"xA"[..], b"X", b"", b"XAB"].map(|country| Device { country, ..own });
    let classes = [69, 65 + 256].map(|class| Device { class, ..own });
    let hertz = NO_HERTZ.map(|hertz| Device { hertz, ..own });
    for device in countries.into_iter().chain(classes).chain(hertz) {
        assert_eq!(store.lookup(&device), Err(10), "{device:?}");
    }
}

#[test]
fn a_made_package_loads() {
    let (mut rng, mut out) = (Rng::new(41), [0; LONGEST]);
    for (s, with_rate) in CATEGORIES.into_iter().flat_map(|s| [(s, false), (s, true)]) {
        let [private, master, salt] = [s.key_seed, s.round_seed, s.salt].map(|len| rng.bytes(len));
        let (mut key, mut package) = (vec![0; s.key()], vec![7; s.signature() + 84]);
        let p = Profile { rate: with_rate.then(|| some_rate(&mut rng)), ..valid(&mut rng) };
        let line = write_line(&BUILT_IN, &p).unwrap();
        assert_eq!(scheme::make_key(&s, &private, &mut key), 0);
        let (answer, length) = make_package(&s, &BUILT_IN_IMAGE, [&private, &master, &salt], &line, &mut package, 0);
        assert_eq!((answer, length), (0, s.signature() + line.len()));
        assert!(package[length..].iter().all(|&byte| byte == 7));
        let mut image = vec![0; STORE];
        let plain = |key: &[u8], message: &[u8], signature: &[u8]| scheme::verify(&s, key, message, signature);
        let mut load = |package: &[u8]| load(&s, &mut image, &key, package, &Device::of(&p), &plain);
        let short = s.signature() + 41;
        assert_eq!([load(&package[..short]), load(&package[..length]), load(&package[..length])], [1, 0, 7]);
        assert_eq!(lookup(&image, &Device::of(&p), &mut out, 0), (0, line.len()));
        assert_eq!(out[..line.len()], line);
        assert_eq!(make_package(&s, &BUILT_IN_IMAGE, [&private, &master, &salt[1..]], b"", &mut package, 5), (1, 5));
        assert_eq!(make_package(&s, &BUILT_IN_IMAGE, [&private, &master, &salt], &[b'x'; 50], &mut package, 5), (5, 5));
    }
}

#[test]
fn packages_and_images_have_the_lengths_of_the_paper() {
    let lengths = CATEGORIES.map(|s| package_lengths(&s).into_inner());
    assert_eq!(lengths, [(19_194, 19_236), (42_724, 42_766), (76_340, 76_382)]);
    assert_eq!((SLOTS, STORE), (1_216, 1_532));
}
