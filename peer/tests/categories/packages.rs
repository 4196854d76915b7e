//! Packages, and what they are made from.

use crate::world::{each_pair, lengths, name, resized, World, LINE};
use peer::harness::{Lent, Tally};
use peer::line::{image, read_line, Profile};
use peer::store::{load, make_package, package_lengths, Device, STORE};
use peer::table::{BUILT_IN, BUILT_IN_IMAGE};

/// Makes a package in both programs: 1 wherever a size is not the category's own.
fn make(t: &mut Tally, own: &World, seeds: &[Vec<u8>; 3], room: usize) {
    let (category, s) = (own.category, own.category.sizes);
    let lent = seeds.each_ref().map(|seed| Lent::holding(seed, t.inputs()));
    let sizes = (seeds.each_ref().map(Vec::len), room);
    let old = t.inputs().wrapping_mul(0x9E37_79B9);
    let proved =
        |out: &mut [u8]| category.make_package(&BUILT_IN_IMAGE, lent.each_ref().map(Lent::content), LINE, out, old);
    let plain =
        |out: &mut [u8]| make_package(&s, &BUILT_IN_IMAGE, seeds.each_ref().map(|seed| &seed[..]), LINE, out, old);
    let answer = t.both(room, proved, plain, || format!("{sizes:?}"));
    assert!(lent.iter().zip(seeds).all(|(lent, seed)| lent.content() == seed), "the seeds, {sizes:?}");
    assert_eq!(answer, u8::from(sizes != ([s.key_seed, s.round_seed, s.salt], own.room())), "{sizes:?}");
}

#[test]
fn making() {
    each_pair(|own, other| {
        let mut t = Tally::new(name("make_package", own, other));
        for len in lengths(&other.category.sizes) {
            for at in 0..3 {
                let mut seeds = own.seeds.clone();
                seeds[at].resize(len, 0);
                make(&mut t, own, &seeds, own.room());
            }
            make(&mut t, own, &own.seeds, len);
        }
        make(&mut t, own, &other.seeds, own.room());
        make(&mut t, own, &other.seeds, other.room());
        make(&mut t, own, &own.seeds, own.room());
        t.finish(79, &[0, 1]);
    });
}

/// The image of a store that holds an older profile of the line's triple, and beside it one of another country and one
/// of the other hertz.
fn stored() -> Vec<u8> {
    let profile = read_line(&BUILT_IN, LINE).expect("a line");
    let [older, country] = [Profile { serial: 11, ..profile }, Profile { country: *b"XB", ..profile }];
    resized(&[country, Profile { hertz: 60, ..profile }, older].each_ref().map(image).concat(), STORE)
}

/// Loads in both programs, for the line's device and for two that do not exist: 1, or 10 before it,
/// wherever a size is not the category's own.
fn load_both(t: &mut Tally, own: &World, key: &[u8], package: &[u8]) {
    let (category, s) = (own.category, own.category.sizes);
    let right = key.len() == s.key() && package_lengths(&s).contains(&package.len());
    let shown = || format!("{} {}", key.len(), package.len());
    for (class, hertz, wanted) in [(66, 50, u8::from(!right)), (69, 50, 10), (66, 55, 10)] {
        let device = Device { country: b"XA", class, hertz };
        let (in_key, in_package) = (Lent::holding(key, t.inputs()), Lent::holding(package, t.inputs()));
        let (mut proved, mut plain) = (Lent::holding(&stored(), t.inputs()), stored());
        let answer = category.load(proved.part(), in_key.content(), in_package.content(), &device);
        let expected = load(&s, &mut plain, key, package, &device, &category.plain.verify);
        t.count(answer, expected, shown);
        assert!(in_key.content() == key && in_package.content() == package, "what was loaded, {}", shown());
        assert_eq!(answer, wanted, "{}", shown());
        assert_eq!(proved.content() == stored(), answer != 0, "the store, {}", shown());
    }
}

/// Honest keys and packages of both, in every way to put them together; and in every size.
#[test]
fn loading() {
    each_pair(|own, other| {
        let mut t = Tally::new(name("load", own, other));
        for key in [&own.key, &other.key] {
            for package in [own.package(), other.package()] {
                load_both(&mut t, own, key, &package);
            }
        }
        for len in lengths(&other.category.sizes) {
            load_both(&mut t, own, &resized(&own.key, len), &own.package());
            load_both(&mut t, own, &own.key, &resized(&own.package(), len));
        }
        t.finish(120, &[0, 1, 10]);
    });
}
