//! Countries, hertz and volts that there are not, wrong sizes, and which refusal comes first.

use super::{at, xa};
use crate::both::{holding, placed, Both};
use peer::archive::CATEGORY_1;
use peer::harness::Tally;
use peer::line::cases::NO_HERTZ;
use peer::line::{is_country, write_line, Profile, NOMINAL_HERTZ};
use peer::store::{Measured, STORE};
use peer::table::BUILT_IN;

/// Numbers that are no measured volts: above the most, and with 230, or 40 and less, in their low bytes.
const NO_VOLTS: [u32; 16] = [
    2_001,
    2_002,
    2_040,
    2_041,
    4_000,
    65_535,
    65_536,
    65_536 + 40,
    65_536 + 230,
    131_072 + 230,
    (1 << 24) + 230,
    (1 << 31) + 230,
    u32::MAX - 2_000,
    u32::MAX - 39,
    u32::MAX - 1,
    u32::MAX,
];

/// Any two bytes as a country that is stored: letters from A to Z alone are one.
#[test]
fn every_country() {
    let mut t = Tally::new("nearest, every country");
    for country in (0..=u16::MAX).map(u16::to_be_bytes) {
        let profile = Profile { country, ..at(230, 50) };
        let both = Both::from(&CATEGORY_1, &holding(&[at(230, 50), profile]));
        let wanted = if is_country(&country) { write_line(&BUILT_IN, &profile) } else { Err(10) };
        assert_eq!(both.near(&mut t, &Measured { country: &country, ..xa(50, 230) }), wanted, "{country:?}");
    }
    t.finish(65_536, &[0, 10]);
}

/// Hertz that there are not are 10, also where a slot has just these. Among them are the numbers that differ from 50 or
/// 60 in one bit.
#[test]
fn every_hertz() {
    let mut t = Tally::new("nearest, hertz");
    let flipped = NOMINAL_HERTZ.into_iter().flat_map(|hertz| (0..32).map(move |bit| hertz ^ 1 << bit));
    for hertz in (0..300).chain(NO_HERTZ).chain(flipped) {
        let profile = at(230, hertz);
        let both = Both::from(&CATEGORY_1, &placed(&[(3, profile), (5, at(231, 50)), (6, at(231, 60))]));
        let wanted = if NOMINAL_HERTZ.contains(&hertz) { write_line(&BUILT_IN, &profile) } else { Err(10) };
        assert_eq!(both.near(&mut t, &xa(hertz, 230)), wanted, "{hertz}");
    }
    t.finish(379, &[0, 10]);
}

/// Volts that nobody measures are 10, also where a slot has just these or what they are modulo 65,536.
#[test]
fn every_volts() {
    let mut t = Tally::new("nearest, volts");
    let flipped = [0, 40, 230, 2_000].into_iter().flat_map(|volts: u32| (11..32).map(move |bit| volts | 1 << bit));
    for volts in NO_VOLTS.into_iter().chain(flipped).chain(2_001..=70_000) {
        let both = Both::from(&CATEGORY_1, &holding(&[at(volts, 50), at(volts % 65_536, 50), at(230, 50)]));
        assert_eq!(both.near(&mut t, &xa(50, volts)), Err(10), "{volts}");
    }
    t.finish(68_000, &[10]);
}

/// Countries, hertz and volts, right and wrong, each with its refusal where there is a profile of `XA`, at 50 hertz and
/// 230 volts: what there is not (10) comes before what is not stored (9).
fn settings() -> Vec<(Measured<'static>, u8)> {
    let countries: [(&[u8], u8); 13] = [
        (b"XA", 0),
        (b"XB", 9),
        (b"AX", 9),
        (b"", 10),
        (b"X", 10),
        (b"XAA", 10),
        (b"XAXA", 10),
        (b"xA", 10),
        (b"X@", 10),
        (b"[A", 10),
        (b"X\xC1", 10),
        (b"\0\0", 10),
        (b"A GOOD COUNTRY", 10),
    ];
    let hertz = [(50, 0), (60, 9), (0, 10), (49, 10), (50 + 256, 10), (50 << 24, 10), (u32::MAX, 10)];
    let volts = [(190, 0), (230, 0), (270, 0), (189, 9), (271, 9), (0, 9), (2_000, 9)];
    let volts = volts.into_iter().chain([2_001, 65_536 + 230, u32::MAX].map(|volts| (volts, 10)));
    let mut all = Vec::new();
    for (country, of_country) in countries {
        for (hertz, of_hertz) in hertz {
            let with = |(volts, of_volts): (u32, u8)| {
                (Measured { country, hertz, volts }, of_country.max(of_hertz).max(of_volts))
            };
            all.extend(volts.clone().map(with));
        }
    }
    all
}

/// Each setting, image and room, right and wrong: 10 before 1, before 9, before 5. What is lent stays as it was, the
/// length too.
#[test]
fn order() {
    let (mut t, good) = (Tally::new("nearest, refusals"), at(230, 50));
    let broken = [Profile { serial: 0, ..good }, Profile { class: b'C', ..good }].map(|broken| holding(&[broken]));
    let far = [holding(&[]), holding(&[at(312, 50), at(148, 50), at(100, 60)])];
    let whole = holding(&[good, Profile { serial: 0, ..good }]);
    let sizes = [0, 76, 1_216, 1_531, 1_533, 3_064].map(|len| whole.iter().copied().cycle().take(len).collect());
    let images: Vec<Vec<u8>> = [vec![whole], broken.to_vec(), far.to_vec(), sizes.to_vec()].concat();
    for (image, of_image) in images.iter().zip([0, 5, 5, 9, 9, 1, 1, 1, 1, 1, 1]) {
        let both = Both::from(&CATEGORY_1, image);
        for (measured, of_measured) in settings() {
            for room in [84, 0, 1, 72, 83, 85, 168] {
                let due = [of_measured, u8::from(room != 84), of_image];
                let wanted = [10, 1, 9].into_iter().find(|refusal| due.contains(refusal)).unwrap_or(of_image);
                assert_eq!(both.nearest(&mut t, &measured, room), wanted, "{measured:?} {room}");
            }
        }
    }
    t.finish(11 * 13 * 7 * 10 * 7, &[0, 1, 5, 9, 10]);
}

/// Every length of an image up to twice the right one and of a buffer up to twice the longest line: only one of each is
/// right.
#[test]
fn sizes() {
    let (mut t, whole) = (Tally::new("nearest, sizes"), holding(&[at(230, 50); 16]).repeat(2));
    for len in 0..=2 * STORE {
        let answer = Both::from(&CATEGORY_1, &whole[..len]).nearest(&mut t, &xa(50, 230), 84);
        assert_eq!(answer, u8::from(len != STORE), "{len}");
    }
    let both = Both::from(&CATEGORY_1, &whole[..STORE]);
    for room in 0..=168 {
        assert_eq!(both.nearest(&mut t, &xa(50, 230), room), u8::from(room != 84), "{room}");
    }
    t.finish(3_065 + 169, &[0, 1]);
}
