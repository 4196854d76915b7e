//! The preview through C and as a program, beside the independent one, byte for byte.

mod order;
mod program;

use peer::archive;
use peer::harness::Tally;
use peer::preview::cases::{any, longest_rows, named, BOTH_HERTZ, BOTH_KINDS};
use peer::preview::{preview, HEADER, LISTING};
use peer::rng::Rng;
use peer::table::BUILT_IN_IMAGE;

fn compare(t: &mut Tally, name: &str, input: &[u8], room: usize) -> u8 {
    let old = t.inputs().wrapping_mul(0x9E37_79B9);
    let shown = || format!("{name}: {:?} into {room} bytes", String::from_utf8_lossy(input));
    t.both(
        room,
        |out| archive::preview(&BUILT_IN_IMAGE, input, out, old),
        |out| preview(&BUILT_IN_IMAGE, input, out, old),
        shown,
    )
}

/// Nothing, the listing's bytes before it had the hertz, and what stands beside the right ones.
const ROOMS: [usize; 5] = [0, 277, 330, 331, 332];

#[test]
fn listings() {
    let (mut t, mut rng) = (Tally::new("preview"), Rng::new(0x7072_6576));
    for (name, input) in named(&mut rng) {
        for room in ROOMS {
            assert_eq!(compare(&mut t, name, &input, room), u8::from(room != 331));
        }
    }
    for _ in 0..10_000 {
        compare(&mut t, "any", &any(&mut rng), LISTING);
    }
    t.finish(10_000, &[0, 1]);
}

/// Up to 18 triples, whose rows have the greatest length: the first 16 are listed, and fill the lent bytes.
#[test]
fn the_longest_listing() {
    let mut t = Tally::new("preview, rows of the greatest length");
    for count in 0..=18 {
        let input = longest_rows(&mut Rng::new(0x6C6F_6E67), count);
        for room in ROOMS {
            let wanted = u8::from(room != LISTING);
            assert_eq!(compare(&mut t, "longest rows", input.as_bytes(), room), wanted, "{count} into {room}");
        }
        let (mut out, rows) = ([0; LISTING], usize::from(count.min(16)));
        assert_eq!(
            archive::preview(&BUILT_IN_IMAGE, input.as_bytes(), &mut out, 0),
            (0, HEADER.len() + 19 * rows),
            "{count}"
        );
        assert_eq!(out.iter().filter(|&&byte| byte == b'\n').count(), 1 + rows, "{count}");
        assert_eq!(out[LISTING - 1], if rows == 16 { b'\n' } else { 0 }, "{count}");
    }
    t.finish(95, &[0, 1]);
}

/// Some inputs cut after each of their bytes.
#[test]
fn every_cut() {
    let (mut t, mut rng) = (Tally::new("preview, cut"), Rng::new(0x6375_7473));
    for input in [any(&mut rng), BOTH_KINDS.as_bytes().to_vec(), BOTH_HERTZ.as_bytes().to_vec()] {
        for end in 0..=input.len() {
            compare(&mut t, "cut", &input[..end], LISTING);
        }
    }
    t.finish(2 + BOTH_KINDS.len() + BOTH_HERTZ.len(), &[0]);
}
