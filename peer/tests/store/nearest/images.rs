//! Images that no loads made: any volts, several slots with the same, profiles that break a rule, any bytes.

use super::{at, networks, orders, outward, some_volts, xa, PAIR};
use crate::both::{holding, placed, Both};
use crate::images::any_store;
use peer::archive::CATEGORY_1;
use peer::harness::Tally;
use peer::line::{image, meaning, write_line, Kind, Profile, Rate, HERTZ, IMAGE, NOMINAL_HERTZ, VOLTS};
use peer::rng::Rng;
use peer::store::{Measured, CAPACITY, SLOTS, STORE};
use peer::table::BUILT_IN;

/// What the used slots of an image hold, in their order.
fn used(bytes: &[u8]) -> Vec<Profile> {
    let slots = bytes[..SLOTS].chunks_exact(IMAGE).filter(|slot| slot[0] != 0);
    slots.map(|slot| meaning(slot.try_into().expect("a slot"))).collect()
}

/// An image in both programs, asked for what is nearest.
struct Asked {
    both: Both,
    used: Vec<Profile>,
    tally: Tally,
}

impl Asked {
    fn new(what: &str) -> Asked {
        Asked { both: Both::empty(&CATEGORY_1), used: Vec::new(), tally: Tally::new(format!("nearest, {what}")) }
    }

    fn hold(&mut self, bytes: &[u8]) {
        (self.both, self.used) = (Both::from(&CATEGORY_1, bytes), used(bytes));
    }

    /// What both answer, which is what `outward` finds.
    fn near(&mut self, measured: &Measured) -> Result<Vec<u8>, u8> {
        let near = self.both.near(&mut self.tally, measured);
        assert_eq!(near, outward(&self.used, measured), "{measured:?} in {:?}", self.used);
        near
    }

    fn answer(&mut self, measured: &Measured) -> u8 {
        self.near(measured).err().unwrap_or(0)
    }
}

/// The usual profile of 230 volts with another serial.
fn serial(serial: u32) -> Profile {
    Profile { serial, ..at(230, 50) }
}

/// Two slots with the same volts, in every two places: the first counts, whatever its serial is and although it alone
/// may break a rule.
#[test]
fn the_first_of_equal_volts() {
    let (mut asked, other_class) = (Asked::new("equal volts"), Profile { class: b'C', ..at(230, 50) });
    let pairs = [[serial(3), serial(9)], [serial(9), serial(3)], [serial(3), other_class], [other_class, serial(3)]];
    for second in 0..CAPACITY {
        for (first, [one, other]) in (0..second).flat_map(|first| pairs.map(|pair| (first, pair))) {
            asked.hold(&placed(&[(first, one), (second, other)]));
            for volts in [190, 229, 230, 231, 270] {
                assert_eq!(asked.near(&xa(50, volts)), write_line(&BUILT_IN, &one), "{first} {second} {volts}");
            }
        }
    }
    asked.tally.finish(120 * 4 * 5, &[0, 5]);
}

/// All slots have one country and its hertz, and volts that are 6 apart: in every order the nearest is found, and half
/// way the lower.
#[test]
fn sixteen_in_reach() {
    let mut asked = Asked::new("sixteen in reach");
    let all: Vec<Profile> = (0..16).map(|step| at(180 + 6 * step, 50)).collect();
    for stored in orders(&all) {
        asked.hold(&holding(&stored));
        for volts in 140..=310u32 {
            let steps = (volts.saturating_sub(180) + 2) / 6;
            assert_eq!(asked.near(&xa(50, volts)), write_line(&BUILT_IN, &at(180 + 6 * steps.min(15), 50)), "{volts}");
        }
        assert_eq!([139, 311].map(|volts| asked.answer(&xa(50, volts))), [9; 2]);
    }
    asked.tally.finish(32 * 173, &[0, 9]);
}

/// Each breaks a rule, of every field but country, hertz and volts: what is not of these is not looked for.
const FAULTS: [fn(&mut Profile); 14] = [
    |p| p.serial = 0,
    |p| p.class = b'A',
    |p| p.class = b'C',
    |p| p.class = b'b',
    |p| p.class = 0,
    |p| p.trips[0].limit = 1_000,
    |p| p.trips[0].kind = Kind::Above,
    |p| p.trips[1].delay = 19,
    |p| p.trips[2].limit = 5_001,
    |p| p.trips[3].kind = Kind::Share,
    |p| p.trips[3].delay = u32::MAX,
    |p| p.rate = Some(Rate { limit: 99, delay: 20 }),
    |p| p.rate = Some(Rate { limit: 10_000, delay: 60_001 }),
    |p| p.rate = Some(Rate { limit: 0, delay: 0 }),
];

/// A profile that breaks a rule and a good one, in both orders: 5 where the broken one is nearer, or as far and lower,
/// or of the same volts in an earlier slot. Where it is not chosen it does no harm.
fn broken_by(asked: &mut Asked, fault: fn(&mut Profile), of_both: [u32; 2]) {
    let [mut broken, good] = of_both.map(|volts| at(volts, 50));
    fault(&mut broken);
    for stored in [[broken, good], [good, broken]] {
        asked.hold(&holding(&stored));
        for volts in 150..=300 {
            let [bad, fine] = of_both.map(|nominal| (nominal.abs_diff(volts), nominal));
            let wanted = match bad.min(fine) {
                (41.., _) => Err(9),
                _ if bad < fine || (bad == fine && stored[0] == broken) => Err(5),
                _ => write_line(&BUILT_IN, &good),
            };
            assert_eq!(asked.near(&xa(50, volts)), wanted, "{volts} {stored:?}");
        }
    }
}

#[test]
fn broken_ones() {
    let mut asked = Asked::new("broken profiles");
    for fault in FAULTS {
        for of_both in [[210, 250], [250, 210], [230, 230], [200, 201]] {
            broken_by(&mut asked, fault, of_both);
        }
    }
    asked.tally.finish(14 * 4 * 2 * 151, &[0, 5, 9]);
}

/// Volts that a slot may hold: about the ends of every range, with 40 or 230 in their low bytes, and so great that a
/// sum or a difference of 32 bits would wrap.
fn held() -> Vec<u32> {
    let low = [
        0, 1, 2, 38, 39, 40, 41, 59, 60, 61, 99, 100, 101, 139, 140, 190, 230, 270, 960, 999, 1_000, 1_001, 1_040,
        1_041, 1_959, 1_960, 1_999, 2_000, 2_001, 2_040, 2_041, 4_000,
    ];
    let great = [1 << 16, 1 << 24, 1 << 31].into_iter().flat_map(|start: u32| [0, 1, 41, 231].map(|x| start - 1 + x));
    let greatest = [2_000, 1_959, 230, 41, 40, 39, 1, 0].map(|below| u32::MAX - below);
    low.into_iter().chain(great).chain(greatest).collect()
}

/// Every two of these in two slots, in both orders. Where the class does not fit, what is chosen breaks a rule.
#[test]
fn any_volts() {
    let mut asked = Asked::new("any volts in a slot");
    let measured = [0, 1, 20, 39, 40, 41, 60, 80, 100, 230, 1_000, 1_001, 1_960, 1_999, 2_000];
    for one in held() {
        for other in held() {
            asked.hold(&placed(&[(2, at(one, 50)), (9, at(other, 50))]));
            for volts in measured {
                asked.answer(&xa(50, volts));
            }
        }
    }
    asked.tally.finish(52 * 52 * 15, &[0, 5, 9]);
}

/// Each of these alone: it is found, or refused as one that breaks a rule, just where it is 40 volts away or less.
#[test]
fn any_volts_alone() {
    let mut asked = Asked::new("any volts alone");
    for held in held() {
        asked.hold(&placed(&[(15, at(held, 60))]));
        for volts in 0..=2_000 {
            let away = (i64::from(held) - i64::from(volts)).abs();
            let wanted = if away > 40 { 9 } else { [5, 0][usize::from((100..=1_000).contains(&held))] };
            assert_eq!(asked.answer(&xa(60, volts)), wanted, "{held} {volts}");
        }
    }
    asked.tally.finish(52 * 2_001, &[0, 5, 9]);
}

/// A slot of 230 volts with one byte changed to each value, alone and before a good one that is farther. Country, hertz
/// and volts count with each of their bytes, and the first byte with any value but 0.
#[test]
fn each_byte() {
    let mut asked = Asked::new("one byte of a slot");
    let bytes = (0..IMAGE).flat_map(|place| (0..=255).map(move |byte| (place, byte)));
    for (slot, (place, byte)) in bytes.flat_map(|change| [0, 7, 14].map(|slot| (slot, change))) {
        let (mut alone, was) = (placed(&[(slot, at(230, 50))]), image(&at(230, 50))[place]);
        alone[slot * IMAGE + place] = byte;
        asked.hold(&alone);
        let answer = asked.answer(&xa(50, 230));
        match place {
            0 => assert_eq!(answer, if byte == 0 { 9 } else { 0 }, "{byte}"),
            3 => assert_eq!(answer, if byte == was { 0 } else { 5 }, "{byte}"),
            8 => assert_eq!(answer, if byte.abs_diff(230) <= 40 { 0 } else { 9 }, "{byte}"),
            1 | 2 | 9..=15 => assert_eq!(answer, if byte == was { 0 } else { 9 }, "{place} {byte}"),
            _ => assert!([0, 5].contains(&answer), "{place} {byte}"),
        }
        alone[15 * IMAGE..SLOTS].copy_from_slice(&image(&at(250, 50)));
        asked.hold(&alone);
        for volts in [200, 230, 239, 240, 241] {
            asked.answer(&xa(50, volts));
        }
    }
    asked.tally.finish(76 * 256 * 3 * 6, &[0, 5, 9]);
}

/// Slots that are not used hold the nearest profile in every place but one, where a farther one is used: it is found.
/// Alone they are an empty store.
#[test]
fn free_slots() {
    let mut asked = Asked::new("slots that are not used");
    let mut free = holding(&[at(230, 50); CAPACITY]);
    free[..SLOTS].chunks_exact_mut(IMAGE).for_each(|slot| slot[0] = 0);
    asked.hold(&free);
    assert_eq!([0, 190, 230, 270].map(|volts| asked.answer(&xa(50, volts))), [9; 4]);
    for (slot, mark) in (0..CAPACITY).flat_map(|slot| (1..=255).map(move |mark| (slot, mark))) {
        let mut bytes = free.clone();
        bytes[slot * IMAGE..(slot + 1) * IMAGE].copy_from_slice(&image(&at(250, 50)));
        bytes[slot * IMAGE] = mark;
        asked.hold(&bytes);
        for (volts, is_near) in [(209, false), (210, true), (230, true), (290, true), (291, false)] {
            let wanted = if is_near { write_line(&BUILT_IN, &at(250, 50)) } else { Err(9) };
            assert_eq!(asked.near(&xa(50, volts)), wanted, "{slot} {mark} {volts}");
        }
    }
    asked.tally.finish(16 * 255 * 5, &[0, 9]);
}

/// Any bytes, but with many slots of a few countries at a few volts, so that several are in reach.
fn crowded(rng: &mut Rng) -> Vec<u8> {
    let (mut bytes, lowest) = (any_store(rng), [0, 60, 100, 200, 480, 970, 1_900][rng.below(7)]);
    for slot in bytes[..SLOTS].chunks_exact_mut(IMAGE) {
        if rng.below(4) > 0 {
            slot[1..3].copy_from_slice(PAIR[rng.below(2)]);
            slot[HERTZ..HERTZ + 4].copy_from_slice(&NOMINAL_HERTZ[rng.below(2)].to_le_bytes());
        }
        if rng.below(4) > 0 {
            let volts = lowest + 2 * rng.below(24) as u32;
            slot[VOLTS..VOLTS + 4].copy_from_slice(&volts.to_le_bytes());
            slot[3] = BUILT_IN.class_of(volts).unwrap_or(slot[3]);
        }
    }
    bytes
}

/// Whether there are profiles in reach that are equally far on both sides, the same volts in two slots, and a good one
/// beside one that breaks a rule.
fn strange(used: &[Profile], m: &Measured) -> [bool; 3] {
    let fits = |p: &&Profile| p.country == m.country && p.hertz == m.hertz && p.volts.abs_diff(m.volts) <= 40;
    let near: Vec<&Profile> = used.iter().filter(fits).collect();
    let least = near.iter().map(|p| p.volts.abs_diff(m.volts)).min();
    let times = |volts: Option<u32>| near.iter().filter(|p| Some(p.volts) == volts).count();
    let [below, above] =
        [least.and_then(|away| m.volts.checked_sub(away)), least.map(|away| m.volts + away)].map(times);
    let broken = near.iter().filter(|p| !p.is_valid(&BUILT_IN)).count();
    [least > Some(0) && below.min(above) > 0, below.max(above) > 1, broken > 0 && broken < near.len()]
}

/// 6,000 images of any bytes, asked for both countries and both hertz at several volts.
#[test]
fn any_bytes() {
    let (mut asked, mut rng, mut seen) = (Asked::new("any image"), Rng::new(0x616E_7965), [0; 3]);
    for _ in 0..6_000 {
        let bytes = crowded(&mut rng);
        asked.hold(&bytes);
        let nominal: Vec<u32> =
            [used(&bytes), vec![at(230, 50)]].concat().iter().map(|profile| profile.volts).collect();
        for (country, hertz) in networks() {
            for _ in 0..5 {
                let measured = Measured { country, hertz, volts: some_volts(&mut rng, &nominal) };
                let answer = asked.answer(&measured);
                let kinds = if answer == 10 { [false; 3] } else { strange(&asked.used, &measured) };
                seen.iter_mut().zip(kinds).for_each(|(sum, kind)| *sum += usize::from(kind));
            }
        }
    }
    println!("equally far on both sides, the same volts twice, good and broken ones in reach: {seen:?}");
    assert!(seen.iter().all(|&count| count > 1_000), "{seen:?}");
    asked.tally.finish(120_000, &[0, 5, 9, 10]);
}

/// Bytes that are all the same, and nothing but noise: no slot has the country, or none is used.
#[test]
fn noise() {
    let (mut asked, mut rng) = (Asked::new("noise"), Rng::new(0x6E6F_6973));
    let same = (0..=255).map(|byte| vec![byte; STORE]);
    for bytes in same.chain((0..1_000).map(|_| rng.bytes(STORE))) {
        asked.hold(&bytes);
        assert_eq!([0, 88, 2_000].map(|volts| asked.answer(&xa(50, volts))), [9; 3]);
    }
    asked.tally.finish(3 * 1_256, &[9]);
}
