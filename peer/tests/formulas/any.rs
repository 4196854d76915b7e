//! Random lines: plain ones, formulas of every kind, near misses and noise.

use crate::{compare, demand, evaluated};
use peer::evaluate::cases::{any, good, joined, places, with_field};
use peer::evaluate::Frame;
use peer::formula::cases::{any as any_formula, failing, missed, noise, ALPHABET};
use peer::harness::{Tally, LEAST};
use peer::line::cases::valid;
use peer::line::{write_line, LONGEST};
use peer::refusal::ANSWERS;
use peer::rng::Rng;
use peer::table::BUILT_IN;

/// A profile line is evaluated to itself.
#[test]
fn plain_lines() {
    let (mut t, mut rng) = (Tally::new("evaluate_line, plain lines"), Rng::new(0x706C_6169));
    while t.inputs() < LEAST {
        let line = write_line(&BUILT_IN, &valid(&mut rng)).expect("valid");
        demand(&mut t, &line, Ok(&line));
    }
    t.finish(LEAST, &[0]);
}

/// What good formulas give is read, and is evaluated to itself.
#[test]
fn good_lines() {
    let (mut t, mut rng) = (Tally::new("evaluate_line, good lines"), Rng::new(0x676F_6F64));
    while t.inputs() < LEAST {
        let line = evaluated(&mut t, &joined(&good(&mut rng))).expect("good");
        demand(&mut t, &line, Ok(&line));
    }
    t.finish(LEAST, &[0]);
}

/// Every answer comes often, both kinds of 5 too; the room is sometimes wrong.
#[test]
fn any_lines() {
    let (mut t, mut rng) = (Tally::new("evaluate_line"), Rng::new(0x616E_7931));
    let (mut frames, mut ranges, mut others) = (0, 0, [0; ANSWERS]);
    while t.inputs() < 2 * LEAST {
        let input = any(&mut rng);
        let room = if rng.below(64) == 0 { [0, 83, 85, 400][rng.below(4)] } else { LONGEST };
        match compare(&mut t, &input, room) {
            5 if Frame::of(&BUILT_IN, &input).is_err() => frames += 1,
            5 => ranges += 1,
            answer => others[usize::from(answer)] += 1,
        }
    }
    let counts = [others[0], others[1], frames, ranges, others[11], others[12]];
    println!("0, 1, 5 for the frame, 5 for a range, 11, 12: {counts:?}");
    assert!(counts.iter().all(|count| *count >= LEAST / 40), "{counts:?}");
    t.finish(2 * LEAST, &[0, 1, 5, 11, 12]);
}

/// Compares with such a limit as any limit of both lines.
fn as_limits(t: &mut Tally, seed: u64, mut limit: impl FnMut(&mut Rng) -> Vec<u8>) {
    let (places, mut rng) = (places(), Rng::new(seed));
    while t.inputs() < LEAST {
        let (line, at, _) = &places[rng.below(places.len())];
        let limit = limit(&mut rng);
        compare(t, &with_field(line, *at, &limit), LONGEST);
    }
}

/// Formulas that the grammar derives: deep and long ones, with numbers and steps near their ends. Now and then one is
/// too long for any input.
#[test]
fn any_formulas() {
    let mut t = Tally::new("evaluate_line, any formulas");
    as_limits(&mut t, 0x666F_726D, |rng| any_formula(rng).into_bytes());
    t.finish(LEAST, &[0, 1, 5, 11, 12]);
}

#[test]
fn failing_steps() {
    let mut t = Tally::new("evaluate_line, steps that fail");
    as_limits(&mut t, 0x7374_6570, |rng| failing(rng).into_bytes());
    t.finish(LEAST, &[11, 12]);
}

/// Formulas with one byte or two other than they were.
#[test]
fn near_misses() {
    let mut t = Tally::new("evaluate_line, near misses");
    as_limits(&mut t, 0x6E65_6172, |rng| {
        let text = any_formula(rng).into_bytes();
        let text = missed(rng, &text);
        if rng.below(4) == 0 {
            return missed(rng, &text);
        }
        text
    });
    t.finish(LEAST, &[0, 1, 5, 11, 12]);
}

/// Good lines with one byte other, anywhere.
#[test]
fn near_misses_of_lines() {
    let (mut t, mut rng) = (Tally::new("evaluate_line, near misses of lines"), Rng::new(0x6E65_6C69));
    while t.inputs() < LEAST {
        let line = joined(&good(&mut rng));
        compare(&mut t, &missed(&mut rng, &line), LONGEST);
    }
    t.finish(LEAST, &[0, 5, 11, 12]);
}

/// Bytes that formulas have, in any order, few and many; and any bytes.
#[test]
fn noise_as_limits() {
    let mut t = Tally::new("evaluate_line, noise");
    as_limits(&mut t, 0x6E6F_6973, |rng| match rng.below(4) {
        0 => {
            let len = rng.below(70);
            rng.bytes(len)
        }
        1 => (0..rng.below(5)).map(|_| ALPHABET[rng.below(ALPHABET.len())]).collect(),
        _ => noise(rng),
    });
    t.finish(LEAST, &[0, 5, 11, 12]);
}

/// Inputs that are no lines: any bytes, and those of lines with formulas, of every length.
#[test]
fn no_lines() {
    let (mut t, mut rng) = (Tally::new("evaluate_line, no lines"), Rng::new(0x6E6F_6C69));
    while t.inputs() < LEAST {
        let len = rng.below(450);
        let usual = [ALPHABET, b",,,,\nGP12XAB"].concat();
        compare(&mut t, &rng.bytes(len), LONGEST);
        let text: Vec<u8> = (0..len).map(|_| usual[rng.below(usual.len())]).collect();
        compare(&mut t, &text, LONGEST);
    }
    t.finish(LEAST, &[1, 5]);
}
