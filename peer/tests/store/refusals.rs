//! Every pair of refusals that one input can have: the earlier wins. And the worked cases.

use crate::both::{holding, Both, Sent, Signer};
use peer::archive::{Category, CATEGORIES, CATEGORY_1};
use peer::harness::Tally;
use peer::line::cases::{valid, NO_HERTZ};
use peer::line::{read_line, Profile, Rate};
use peer::rng::Rng;
use peer::scheme::challenges;
use peer::scheme::forge::Forger;
use peer::sizes::Sizes;
use peer::store::{package_lengths, Device};
use peer::table::BUILT_IN;

const LINE: &[u8] = b"GP1,XA,B,12,230,50,1150,100,800,1500,1500,100,-2500,100\n";
/// The same at a frequency that there is not, of another class, with a byte after the line feed, without one; with a
/// rate that is too low, and with the tag of the other kind before each number of fields.
const BAD_LINES: [&[u8]; 7] = [
    b"GP1,XA,B,12,230,55,1150,100,800,1500,1500,100,-2500,100\n",
    b"GP1,XA,B,12,260,50,1150,100,800,1500,1500,100,-2500,100\n",
    b"GP1,XA,B,12,230,50,1150,100,800,1500,1500,100,-2500,100\n\n",
    b"GP1,XA,B,12,230,50,1150,100,800,1500,1500,100,-2500,100",
    b"GP2,XA,B,12,230,50,1150,100,800,1500,1500,100,-2500,100,99,500\n",
    b"GP1,XA,B,12,230,50,1150,100,800,1500,1500,100,-2500,100,2000,500\n",
    b"GP2,XA,B,12,230,50,1150,100,800,1500,1500,100,-2500,100\n",
];

/// What a signer claims beside honest rounds.
#[derive(Clone, Copy, PartialEq, Debug)]
enum Claim {
    Honest,
    AnyC,
    AnyH,
}

const CLAIMS: [Claim; 3] = [Claim::Honest, Claim::AnyC, Claim::AnyH];

/// One change in a package.
type Damage = fn(&Sizes, &mut Vec<u8>);

#[derive(Clone)]
struct Input {
    sizes: Sizes,
    image: Vec<u8>,
    key: Vec<u8>,
    line: &'static [u8],
    claim: Claim,
    damage: Vec<Damage>,
    room: Option<usize>,
    country: &'static [u8],
    class: u32,
    hertz: u32,
}

/// The line's profile, at other countries, classes and serials.
fn at(country: [u8; 2], class: u8, serial: u32) -> Profile {
    Profile { country, class, serial, ..read_line(&BUILT_IN, LINE).expect("a line") }
}

/// The line's profile with the greatest serial, at these hertz.
fn newest_at(hertz: u32) -> Profile {
    Profile { hertz, ..at(*b"XA", b'B', u32::MAX) }
}

/// The triple at this serial between others: one of another country, and the other hertz with a serial that is greater
/// than any.
fn with_triple(serial: u32) -> Vec<u8> {
    holding(&[at(*b"XZ", b'B', 1), newest_at(60), at(*b"XA", b'B', serial)])
}

/// Sixteen triples, the last of which is this. The others differ from the line's in one letter, or in one byte of the
/// hertz.
fn full(last: Profile) -> Vec<u8> {
    let near =
        [at(*b"XA", b'A', 1), at(*b"XA", b'C', 1), at(*b"XA", b'D', 1), at(*b"XB", b'B', 1), at(*b"AX", b'B', 1)];
    let other_hertz = [60, 51, 50 + 256, 50 + 65_536, 50 + (1 << 24)].map(newest_at);
    let others = (0..5).map(|letter| at([b'Y', b'A' + letter], b'B', 1));
    holding(&near.into_iter().chain(other_hertz).chain(others).chain([last]).collect::<Vec<Profile>>())
}

/// The part of the first round with second challenge 0: response, transformation, commitment.
fn zero_part<'a>(s: &Sizes, package: &'a mut [u8]) -> &'a mut [u8] {
    let (signature, line) = package.split_at(s.signature());
    let (_, second) = challenges(s, line, signature).expect("no short draw");
    let ones = second.iter().take_while(|&&challenge| challenge == 1).count();
    let start = s.salt + 2 * s.digest + ones * s.part(1);
    &mut package[start..start + s.part(0)]
}

fn damaged(i: &mut Input, damage: Damage) {
    i.damage.push(damage);
}

type Fault = (u8, &'static str, fn(&mut Input));

/// Faults in the order in which they are looked at, each with its refusal and its place: two faults
/// of one place cannot come together. A draw of these sizes is short for no input that can be found,
/// so 2 is not among them.
const FAULTS: [Fault; 60] = [
    (10, "country", |i| i.country = b"Xa"),
    (10, "country", |i| i.country = b"[A"),
    (10, "country", |i| i.country = b""),
    (10, "country", |i| i.country = b"X"),
    (10, "country", |i| i.country = b"XAA"),
    (10, "country", |i| i.country = b"XAXA"),
    (10, "class", |i| i.class = 0),
    (10, "class", |i| i.class = 64),
    (10, "class", |i| i.class = 69),
    (10, "class", |i| i.class = 66 + 256),
    (10, "class", |i| i.class = 66 + 65_536),
    (10, "hertz", |i| i.hertz = 0),
    (10, "hertz", |i| i.hertz = 16),
    (10, "hertz", |i| i.hertz = 49),
    (10, "hertz", |i| i.hertz = 51),
    (10, "hertz", |i| i.hertz = 55),
    (10, "hertz", |i| i.hertz = 59),
    (10, "hertz", |i| i.hertz = 61),
    (10, "hertz", |i| i.hertz = 50 + 256),
    (10, "hertz", |i| i.hertz = 50 + 65_536),
    (10, "hertz", |i| i.hertz = 60 + (1 << 24)),
    (10, "hertz", |i| i.hertz = u32::MAX),
    (1, "image", |i| i.image.truncate(1_024)),
    (1, "image", |i| i.image.truncate(1_216)),
    (1, "image", |i| i.image.truncate(1_531)),
    (1, "image", |i| i.image.push(0)),
    (1, "image", |i| i.image.clear()),
    (1, "key size", |i| i.key.truncate(i.sizes.key() - 1)),
    (1, "key size", |i| i.key.push(0)),
    (1, "key size", |i| i.key.clear()),
    (1, "package size", |i| i.room = Some(package_lengths(&i.sizes).start() - 1)),
    (1, "package size", |i| i.room = Some(package_lengths(&i.sizes).end() + 1)),
    (1, "package size", |i| i.room = Some(i.sizes.signature())),
    (1, "package size", |i| i.room = Some(0)),
    (3, "key", |i| i.key[i.sizes.key() - 1] |= 0x80),
    (3, "key", |i| i.key[i.sizes.key_seed] |= 0x7F),
    (3, "y", |i| damaged(i, |s, p| zero_part(s, p)[0] |= 0x7F)),
    (3, "y", |i| damaged(i, |s, p| zero_part(s, p)[s.packed_values() - 1] |= 0x80)),
    (3, "sigma", |i| damaged(i, |s, p| zero_part(s, p)[s.packed_values()] |= 7)),
    (3, "sigma", |i| damaged(i, |s, p| zero_part(s, p)[s.reply(0) - 1] |= 0x80)),
    (4, "end", |i| damaged(i, |s, p| p[s.signature() - 1] ^= 1)),
    (4, "claim", |i| i.claim = Claim::AnyC),
    (4, "claim", |i| i.claim = Claim::AnyH),
    (5, "line", |i| i.line = BAD_LINES[0]),
    (5, "line", |i| i.line = BAD_LINES[1]),
    (5, "line", |i| i.line = BAD_LINES[2]),
    (5, "line", |i| i.line = BAD_LINES[3]),
    (5, "line", |i| i.line = BAD_LINES[4]),
    (5, "line", |i| i.line = BAD_LINES[5]),
    (5, "line", |i| i.line = BAD_LINES[6]),
    (6, "country", |i| i.country = b"XB"),
    (6, "country", |i| i.country = b"AX"),
    (6, "class", |i| i.class = 65),
    (6, "hertz", |i| i.hertz = 60),
    (7, "store", |i| i.image = with_triple(12)),
    (7, "store", |i| i.image = with_triple(13)),
    (7, "store", |i| i.image = with_triple(u32::MAX)),
    (7, "store", |i| i.image = full(at(*b"XA", b'B', 12))),
    (8, "store", |i| i.image = full(at(*b"YZ", b'B', 12))),
    (8, "store", |i| i.image = full(newest_at(50 << 24))),
];

/// The package of every line and claim.
fn packages(s: &Sizes, rng: &mut Rng, signer: &Signer) -> Vec<(&'static [u8], Claim, Vec<u8>)> {
    let mut made = Vec::new();
    for line in [LINE].into_iter().chain(BAD_LINES) {
        let forger = Forger::new(s, rng, &signer.private_seed, line).expect("no short draw");
        for claim in CLAIMS {
            let any = rng.bytes(s.digest);
            let (c, h) = ((claim == Claim::AnyC).then_some(&any[..]), (claim == Claim::AnyH).then_some(&any[..]));
            made.push((line, claim, [&forger.claim(c, h).expect("no short draw"), line].concat()));
        }
    }
    made
}

fn pairs_at(category: &Category) {
    let (mut t, mut rng) = (category.tally("load, pairs of refusals"), Rng::new(6));
    let (sizes, signer) = (category.sizes, Signer::new(category, &mut rng));
    let made = packages(&sizes, &mut rng, &signer);
    let honest = Input {
        sizes,
        image: with_triple(11),
        key: signer.key.clone(),
        line: LINE,
        claim: Claim::Honest,
        damage: Vec::new(),
        room: None,
        country: b"XA",
        class: 66,
        hertz: 50,
    };
    let mut answer = |faults: &[Fault]| {
        let mut i = honest.clone();
        faults.iter().for_each(|fault| fault.2(&mut i));
        let found = made.iter().find(|(line, claim, _)| *line == i.line && *claim == i.claim);
        let mut package = found.expect("made").2.clone();
        i.damage.iter().for_each(|damage| damage(&sizes, &mut package));
        package.resize(i.room.unwrap_or(package.len()), b'0');
        let Input { country, class, hertz, .. } = i;
        let (sent, device) = (Sent { key: &i.key, package: &package }, Device { country, class, hertz });
        let mut both = Both::from(category, &i.image);
        if category.number == 1 {
            both.load_clear(&mut t, sent, &device)
        } else {
            both.load_fast(&mut t, sent, &device)
        }
    };
    assert_eq!(answer(&[]), 0);
    for (at, fault) in FAULTS.into_iter().enumerate() {
        assert_eq!(answer(&[fault]), fault.0, "fault {at}");
        for (later, other) in FAULTS.into_iter().enumerate().skip(at + 1).filter(|(_, other)| other.1 != fault.1) {
            // the later one first: a size is changed after the content
            assert_eq!(answer(&[other, fault]), fault.0, "faults {at} and {later}");
        }
    }
    t.finish(1_663, &[0, 1, 3, 4, 5, 6, 7, 8, 10]);
}

#[test]
fn pairs_of_refusals() {
    CATEGORIES.iter().for_each(pairs_at);
}

/// Settings of country, class and hertz, right and wrong, each with its refusal: what is wrong in several ways is no
/// device's (10) before it is one for which nothing is stored (9).
fn settings() -> Vec<(Device<'static>, u8)> {
    let countries: [(&[u8], u8); 7] =
        [(b"XA", 0), (b"XB", 9), (b"", 10), (b"X", 10), (b"XAA", 10), (b"xA", 10), (b"X@", 10)];
    let classes = [(66, 0), (68, 9), (64, 10), (69, 10), (66 + 256, 10), (66 + (1 << 24), 10)];
    let hertz: Vec<_> = [(50, 0), (60, 9)].into_iter().chain(NO_HERTZ.map(|hertz| (hertz, 10))).collect();
    let mut all = Vec::new();
    for (country, of_country) in countries {
        for (class, of_class) in classes {
            let with = |&(hertz, of_hertz): &(u32, u8)| {
                (Device { country, class, hertz }, of_country.max(of_class).max(of_hertz))
            };
            all.extend(hertz.iter().map(with));
        }
    }
    all
}

/// A lookup with each setting, image and room, right and wrong.
#[test]
fn lookups() {
    let (mut t, good) = (Tally::new("lookup, refusals"), at(*b"XA", b'B', 12));
    let rates = [100, 99].map(|limit| holding(&[Profile { rate: Some(Rate { limit, delay: 20 }), ..good }]));
    let [broken, near] = [Profile { volts: 260, ..good }, newest_at(50 + 65_536)];
    let stored = [vec![good], vec![Profile { serial: 0, ..good }], vec![broken], vec![near, good], vec![near], vec![]]
        .map(|profiles| holding(&profiles));
    let sizes = [0, 76, 316, 1_024, 1_216, 1_531, 1_533, 3_064].map(|len| vec![0; len]);
    let held = rates.iter().chain(&stored).zip([0, 5, 0, 5, 5, 0, 9, 9]);
    let images = held.chain(sizes.iter().zip([1; 8]));
    for (image, of_image) in images {
        for (device, of_device) in settings() {
            for room in [84, 0, 1, 71, 72, 73, 83, 85, 168] {
                let due = [of_device, u8::from(room != 84), of_image];
                let wanted = [10, 1, 9].into_iter().find(|refusal| due.contains(refusal)).unwrap_or(of_image);
                let answer = Both::from(&CATEGORY_1, image).lookup(&mut t, &device, room);
                assert_eq!(answer, wanted, "{device:?} {room}");
            }
        }
    }
    t.finish(16 * 714 * 9, &[0, 1, 5, 9, 10]);
}

/// Serial 12 after 12, then 13; a 17th triple; and the same country with another class or other hertz stays apart.
fn worked_at(category: &Category) {
    let (mut t, mut rng) = (category.tally("load, worked cases"), Rng::new(7));
    let (signer, mut both) = (Signer::new(category, &mut rng), Both::empty(category));
    let mut load = |both: &mut Both, profile: &Profile| {
        let package = signer.package_of(&mut rng, profile);
        both.load_clear(&mut t, Sent { key: &signer.key, package: &package }, &Device::of(profile))
    };
    let twelve = read_line(&BUILT_IN, LINE).expect("a line");
    let thirteen = Profile { serial: 13, ..twelve };
    let other_class = Profile { class: b'C', volts: 400, serial: 5, ..twelve };
    let other_hertz = Profile { hertz: 60, serial: 1, ..twelve };
    let steps = [(twelve, 0), (twelve, 7), (thirteen, 0), (twelve, 7), (other_class, 0), (other_hertz, 0)];
    for (profile, wanted) in steps.into_iter().chain([(other_hertz, 7), (thirteen, 7)]) {
        assert_eq!(load(&mut both, &profile), wanted);
    }
    assert_eq!(both.stored(), [other_hertz, thirteen, other_class]);
    let base = valid(&mut Rng::new(8));
    for at in 0..14 {
        let wanted = if at < 13 { 0 } else { 8 };
        assert_eq!(load(&mut both, &Profile { country: [b'Q', b'A' + at], ..base }), wanted);
    }
    for newer in [Profile { serial: 14, ..twelve }, Profile { serial: 2, ..other_hertz }] {
        assert_eq!(load(&mut both, &newer), 0);
    }
    t.finish(24, &[0, 7, 8]);
}

#[test]
fn worked_cases() {
    CATEGORIES.iter().for_each(worked_at);
}
