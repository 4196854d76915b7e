//! The worked table, ties, the ends of the reach, and images that no load made.

use super::*;
use crate::line::cases::handed_out;
use crate::line::{read_line, write_line, LONGEST};
use crate::table::BUILT_IN;

/// The lines of the worked store.
const LINES: [&[u8]; 3] = [
    b"GP1,XA,B,12,230,50,1150,100,800,1500,1500,100,-2500,100\n",
    b"GP1,XA,C,5,300,50,1100,200,850,1500,1500,100,-2500,100\n",
    b"GP1,XA,B,1,240,60,1150,100,800,1500,1500,100,-2500,100\n",
];

/// Every order of three.
const ORDERS: [[usize; 3]; 6] = [[0, 1, 2], [0, 2, 1], [1, 0, 2], [1, 2, 0], [2, 0, 1], [2, 1, 0]];

fn xa(hertz: u32, volts: u32) -> Measured<'static> {
    Measured { country: b"XA", hertz, volts }
}

fn worked(at: usize) -> Profile {
    read_line(&BUILT_IN, LINES[at]).expect("a line")
}

/// The first worked profile at these volts, with a serial of its own; the class stays, and so it may break a rule.
fn at(volts: u32, serial: u32) -> Profile {
    Profile { volts, serial, ..worked(0) }
}

/// What the entry answers for this store, and the line.
fn answer(store: &Store, measured: &Measured) -> Result<Vec<u8>, Refusal> {
    let image = store.image();
    handed_out(|out, length| nearest(&image, measured, out, length))
}

#[test]
fn the_worked_table() {
    let country = |country| Measured { country, ..xa(50, 230) };
    let rows = [
        (xa(50, 237), Ok(0)),
        (xa(50, 265), Ok(0)),
        (xa(50, 266), Ok(1)),
        (xa(50, 190), Ok(0)),
        (xa(50, 340), Ok(1)),
        (xa(50, 189), Err(9)),
        (xa(50, 341), Err(9)),
        (xa(50, 0), Err(9)),
        (xa(50, 2_000), Err(9)),
        (xa(60, 230), Ok(2)),
        (country(b"XB"), Err(9)),
        (xa(50, 2_001), Err(10)),
        (xa(16, 230), Err(10)),
        (country(b"xa"), Err(10)),
    ];
    for order in ORDERS {
        let store = Store::holding(&order.map(worked));
        for (measured, wanted) in rows {
            assert_eq!(answer(&store, &measured), wanted.map(|at: usize| LINES[at].to_vec()), "{measured:?}");
            assert_eq!(store.nearest(&measured), wanted.map(worked), "{measured:?}");
        }
    }
}

#[test]
fn the_lower_of_two_equally_far() {
    for distance in 1..=REACH {
        let [lower, upper] = [at(200 - distance, 1), at(200 + distance, 2)];
        for both in [[lower, upper], [upper, lower]] {
            let store = Store::holding(&both);
            let found = [199, 200, 201].map(|volts| store.nearest(&xa(50, volts)));
            assert_eq!(found, [Ok(lower), Ok(lower), Ok(upper)], "{distance}");
        }
    }
}

/// What is farther by one volt loses, also where it is lower or of an earlier slot.
#[test]
fn the_nearer_before_the_lower() {
    let [lower, upper] = [at(190, 1), at(209, 2)];
    for both in [[lower, upper], [upper, lower]] {
        assert_eq!(Store::holding(&both).nearest(&xa(50, 200)), Ok(upper));
    }
}

#[test]
fn the_first_of_equal_volts() {
    let [first, second, nearer] = [at(230, 9), at(230, 3), at(240, 1)];
    let store = Store::holding(&[first, second]);
    for volts in [190, 229, 230, 231, 270] {
        assert_eq!(store.nearest(&xa(50, volts)), Ok(first), "{volts}");
    }
    assert_eq!(Store::holding(&[first, second, nearer]).nearest(&xa(50, 236)), Ok(nearer));
}

/// Volts at both ends of what an image can hold, each with measured ones in reach and out of it: no distance wraps.
#[test]
fn any_volts_in_an_image() {
    let cases: [(u32, &[u32], &[u32]); 8] = [
        (0, &[0, 1, 40], &[41, 2_000]),
        (60, &[20, 60, 100], &[0, 19, 101]),
        (2_000, &[1_960, 2_000], &[0, 1_959]),
        (2_040, &[2_000], &[0, 1_999]),
        (2_041, &[], &[0, 40, 2_000]),
        (65_536 + 230, &[], &[0, 190, 230, 2_000]),
        (u32::MAX - 39, &[], &[0, 1, 39, 2_000]),
        (u32::MAX, &[], &[0, 39, 40, 2_000]),
    ];
    for (held, near, far) in cases {
        let store = Store::holding(&[at(held, 1)]);
        let found = |volts: &u32| store.nearest(&xa(50, *volts));
        assert!(near.iter().all(|volts| found(volts) == Ok(at(held, 1))), "{held}");
        assert!(far.iter().all(|volts| found(volts) == Err(9)), "{held}");
    }
}

/// What is chosen breaks a rule: 5. What is not chosen may break any.
#[test]
fn a_chosen_one_that_breaks_a_rule() {
    let [good, broken] = [at(230, 1), at(240, 0)];
    let store = Store::holding(&[broken, good]);
    assert_eq!(answer(&store, &xa(50, 235)), Ok(write_line(&BUILT_IN, &good).unwrap()));
    for volts in [236, 240, 271, 280] {
        assert_eq!(answer(&store, &xa(50, volts)), Err(5), "{volts}");
    }
    assert_eq!(answer(&store, &xa(50, 281)), Err(9));
    assert_eq!(answer(&Store::holding(&[at(260, 1)]), &xa(50, 250)), Err(5));
}

/// A slot that is not used is not seen, whatever it holds.
#[test]
fn used_slots_alone() {
    let mut bytes = Store::holding(&[at(230, 1), at(240, 2)]).image();
    for used in [1, 2, 0x80, 0xFF, 0] {
        bytes[0] = used;
        let wanted = if used == 0 { at(240, 2) } else { at(230, 1) };
        assert_eq!(Store::from_image(&bytes).nearest(&xa(50, 225)), Ok(wanted));
    }
}

/// 10 before 1, and 1 before 9 and 5.
#[test]
fn the_order_of_refusals() {
    let (broken, good) = (Store::holding(&[at(230, 0)]).image(), xa(50, 230));
    let countries = [&b""[..], b"X", b"XAA", b"X@"].map(|country| Measured { country, ..good });
    let numbers =
        [(50, 2_001), (50, 65_536 + 230), (50, u32::MAX), (50 + 256, 230)].map(|(hertz, volts)| xa(hertz, volts));
    let sizes = [(&broken[..], LONGEST), (&broken[1..], LONGEST), (&broken, LONGEST - 1), (&[], 0)];
    for ((image, room), wanted) in sizes.into_iter().zip([[5, 9], [1, 1], [1, 1], [1, 1]]) {
        let mut out = vec![7; room];
        for measured in countries.into_iter().chain(numbers) {
            assert_eq!(nearest(image, &measured, &mut out, 99), (10, 99), "{measured:?}");
        }
        let answers = [50, 60].map(|hertz| nearest(image, &xa(hertz, 230), &mut out, 99));
        assert_eq!(answers, wanted.map(|answer| (answer, 99)));
        assert_eq!(out, vec![7; room]);
    }
}
