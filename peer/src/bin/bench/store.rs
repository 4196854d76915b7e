//! Rows of packages, loading, lookups and the nearest profile.

use crate::measure::least;
use crate::scheme::{row, Signed, INPUTS, LINE, SIGN, VERIFY};
use crate::stacks::Stacks;
use crate::table::{print, Row};
use peer::archive::{self, Category};
use peer::line::{image, read_line, Profile, LONGEST};
use peer::preview::cases::USUAL;
use peer::rng::Rng;
use peer::store::{self, Device, Measured, CAPACITY, STORE};
use peer::table::{BUILT_IN, BUILT_IN_IMAGE};
use std::array::from_fn;
use std::hint::black_box;

/// A package of the usual line, and what it is made from.
struct Packaged {
    signed: Signed,
    package: Vec<u8>,
}

/// Bytes of the longest package.
fn longest(category: &Category) -> usize {
    *store::package_lengths(&category.sizes).end()
}

type Make = fn(&Signed, &mut [u8]) -> (u8, usize);

fn make_by_library(at: &Signed, package: &mut [u8]) -> (u8, usize) {
    at.category.make_package(&BUILT_IN_IMAGE, at.seeds.each_ref().map(|seed| &seed[..]), &at.message, package, 0)
}

fn make_by_plain(at: &Signed, package: &mut [u8]) -> (u8, usize) {
    let seeds = at.seeds.each_ref().map(|seed| &seed[..]);
    store::make_package_by(at.sizes(), &BUILT_IN_IMAGE, seeds, &at.message, package, 0, &at.category.plain.sign)
}

impl Packaged {
    /// Both programs make the same package.
    fn draw(category: &'static Category, rng: &mut Rng) -> Packaged {
        let signed = Signed::draw(category, rng, USUAL.as_bytes());
        let package = [&signed.signature[..], &signed.message].concat();
        for make in [make_by_library, make_by_plain] as [Make; 2] {
            let mut out = vec![0; longest(category)];
            assert_eq!(make(&signed, &mut out), (0, package.len()));
            assert!(out[..package.len()] == package, "packages differ");
        }
        Packaged { signed, package }
    }
}

/// A package made, and loaded into an empty store.
pub fn rows(category: &'static Category, rng: &mut Rng, stacks: &Stacks) {
    let cases: Vec<Packaged> = (0..INPUTS).map(|_| Packaged::draw(category, rng)).collect();
    let (first, device) = (&cases[0].signed, Device { country: b"XA", class: 66, hertz: 50 });
    let [mut out, mut other] = [(); 2].map(|()| vec![0; longest(category)]);
    let mut library = |at: usize| assert_eq!(make_by_library(&cases[at].signed, black_box(&mut out)).0, 0);
    let mut plain = |at: usize| assert_eq!(make_by_plain(&cases[at].signed, black_box(&mut other)).0, 0);
    row(category, "make_package", stacks, &SIGN.strings(first), &mut library, &mut plain);
    let mut library = |at: usize| {
        let (mut image, Packaged { signed, package }) = ([0; STORE], &cases[at]);
        assert_eq!(category.load(black_box(&mut image), &signed.key, package, &device), 0);
    };
    let mut plain = |at: usize| {
        let (mut image, Packaged { signed, package }) = ([0; STORE], &cases[at]);
        let verify = &category.plain.verify;
        assert_eq!(store::load(&category.sizes, black_box(&mut image), &signed.key, package, &device, verify), 0);
    };
    row(category, "load", stacks, &VERIFY.strings(first), &mut library, &mut plain);
}

/// A row of an entry that finds the line of each of 16 stored profiles once.
fn finding(
    entry: &str,
    stacks: &Stacks,
    library: impl Fn(usize, &mut [u8]) -> (u8, usize),
    plain: impl Fn(usize, &mut [u8]) -> (u8, usize),
) {
    let (mut out, mut other) = ([0; LONGEST], [0; LONGEST]);
    let mut library = |at: usize| assert_eq!(library(at, black_box(&mut out)), (0, LINE));
    let mut plain = |at: usize| assert_eq!(plain(at, black_box(&mut other)), (0, LINE));
    let times = least(CAPACITY, CAPACITY, &mut [&mut library, &mut plain]);
    assert_eq!(out, other, "{entry}");
    let (name, stack) = (format!("{entry}, 16 stored"), stacks.of(entry));
    print(&Row { name, library: times[0], plain: times[1], stack, ..Row::default() });
}

fn usual() -> Profile {
    read_line(&BUILT_IN, USUAL.as_bytes()).expect("a line")
}

/// The image of a store that holds these profiles under the built-in classes.
fn holding(stored: &[Profile; CAPACITY]) -> Vec<u8> {
    let mut bytes: Vec<u8> = stored.iter().flat_map(image).collect();
    bytes.extend(BUILT_IN_IMAGE);
    bytes
}

/// One profile of each of 16 countries.
pub fn lookup(stacks: &Stacks) {
    let stored: [Profile; CAPACITY] = from_fn(|at| Profile { country: [b'X', b'A' + at as u8], ..usual() });
    let image = holding(&stored);
    let library = |at: usize, line: &mut [u8]| archive::lookup(&image, &Device::of(&stored[at]), line, 0);
    let plain = |at: usize, line: &mut [u8]| store::lookup(&image, &Device::of(&stored[at]), line, 0);
    finding("lookup", stacks, library, plain);
}

/// Four countries, each with a profile of every class, and measured volts that are 7 above those of each.
pub fn nearest(stacks: &Stacks) {
    let of_class = |volts: u32| Profile { volts, class: BUILT_IN.class_of(volts).expect("100 to 1000"), ..usual() };
    let classes = [110, 230, 400, 690].map(of_class);
    let stored: [Profile; CAPACITY] =
        from_fn(|at| Profile { country: [b'X', b'A' + (at / 4) as u8], ..classes[at % 4] });
    let image = holding(&stored);
    let measured = |at: usize| {
        let Profile { country, hertz, volts, .. } = &stored[at];
        Measured { country, hertz: *hertz, volts: volts + 7 }
    };
    let library = |at: usize, line: &mut [u8]| archive::nearest(&image, &measured(at), line, 0);
    let plain = |at: usize, line: &mut [u8]| store::nearest(&image, &measured(at), line, 0);
    finding("nearest", stacks, library, plain);
}
