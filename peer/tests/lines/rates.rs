//! The rate point, in lines and in images.

use crate::{reader, write, IMAGE};
use peer::archive;
use peer::harness::Tally;
use peer::line::cases::PRESENCES;
use peer::table::BUILT_IN_IMAGE;

/// What both worked lines have between tag and rate point.
const MIDDLE: &str = "XA,B,13,230,50,1150,100,800,1500,1500,100,-2500,100";

/// Spellings that no number has.
const MISSPELT: [&str; 22] = [
    "", "-", "+", "x", " ", "-0", "00", "-2000", "+2000", "02000", "002000", "-02000", " 2000", "2000 ", "2000\r",
    "2000.0", "2e3", "0x7D0", "\"2000\"", "2_000", "2000\0", "٢000",
];

/// Texts for a field, each with whether a line may have it there.
fn marked(good: &[&'static str], bad: &[&'static str]) -> Vec<(&'static str, bool)> {
    let bad = bad.iter().chain(&MISSPELT).map(|&text| (text, false));
    good.iter().map(|&text| (text, true)).chain(bad).collect()
}

/// The ends of both ranges and what stands beside them, and every wrong spelling: each rate with each delay.
#[test]
fn every_rate_and_delay() {
    let mut c = reader().at_least(36 * 34);
    let rates = marked(
        &["100", "101", "2000", "9999", "10000"],
        &["0", "1", "20", "99", "10001", "60000", "4294967295", "4294967296", "4294967396"],
    );
    let delays = marked(
        &["20", "21", "500", "59999", "60000"],
        &["0", "1", "19", "60001", "4294967295", "4294967296", "4294967316"],
    );
    for (rate, is_rate) in rates {
        for (delay, is_delay) in &delays {
            let line = format!("GP2,{MIDDLE},{rate},{delay}\n");
            c.demand(line.as_bytes(), IMAGE, if is_rate && *is_delay { 0 } else { 5 });
        }
    }
    c.finish(&[0, 5]);
}

/// What is read from the worked lines: a point that is absent is three zeros, whatever was lent.
#[test]
fn read_into_images() {
    let head = [1, b'X', b'A', b'B', 13, 0, 0, 0, 230, 0, 0, 0, 50, 0, 0, 0];
    let present = [1, 0, 0, 0, 0xD0, 0x07, 0, 0, 0xF4, 0x01, 0, 0];
    for (line, rate) in [(format!("GP1,{MIDDLE}\n"), [0; 12]), (format!("GP2,{MIDDLE},2000,500\n"), present)] {
        for old in [0, 0xA5, 0xFF] {
            let mut image = [old; 76];
            assert_eq!(archive::read_line(&BUILT_IN_IMAGE, line.as_bytes(), &mut image), 0);
            assert_eq!(image[..16], head);
            assert_eq!(image[64..], rate);
        }
    }
}

/// Only a presence of 0 is absent, and then no limit and no delay matters; any other is present, and both do.
#[test]
fn every_presence() {
    let mut t = Tally::new("write_line, rate points");
    let mut bytes = [0; 76];
    assert_eq!(archive::read_line(&BUILT_IN_IMAGE, format!("GP1,{MIDDLE}\n").as_bytes(), &mut bytes), 0);
    for presence in PRESENCES {
        for limit in [0, 1, 99, 100, 2_000, 10_000, 10_001, u32::MAX] {
            for delay in [0, 19, 20, 500, 60_000, 60_001, u32::MAX] {
                bytes[64..].copy_from_slice(&[presence, limit, delay].map(u32::to_le_bytes).concat());
                let in_range = (100..=10_000).contains(&limit) && (20..=60_000).contains(&delay);
                let wanted = match (presence, in_range) {
                    (0, _) => Some(format!("GP1,{MIDDLE}\n")),
                    (_, true) => Some(format!("GP2,{MIDDLE},{limit},{delay}\n")),
                    (_, false) => None,
                };
                assert_eq!(write(&mut t, &bytes, 84), if wanted.is_some() { 0 } else { 5 });
                let mut out = [0; 84];
                let (answer, length) = archive::write_line(&BUILT_IN_IMAGE, &bytes, &mut out, 0);
                assert_eq!((answer == 0).then_some(&out[..length]), wanted.as_deref().map(str::as_bytes));
            }
        }
    }
    t.finish(448, &[0, 5]);
}
