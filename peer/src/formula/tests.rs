//! The named formulas; every short text beside what the grammar derives; random formulas beside a plainer way.

mod derived;
mod split;
mod wrong;

use super::cases::{any, in_pairs, missed, named, noise, of_length, shown_as, ALPHABET, VOLTS};
use super::*;
use crate::rng::Rng;
use split::{valued, RIGHT};

#[test]
fn named_formulas() {
    for (text, wanted) in named() {
        assert_eq!(value(text.as_bytes(), VOLTS), wanted, "{text:?}");
    }
}

/// No formula stands twice among them, and those at the bounds have the lengths that they are meant to have.
#[test]
fn the_names() {
    let mut all: Vec<&str> = named().map(|(text, _)| text).collect();
    let long = |len: usize| all.iter().filter(|text| text.len() == len).count();
    assert_eq!([63, 64, 65, 66].map(long), [1, 4, 3, 0]);
    let count = all.len();
    all.sort();
    all.dedup();
    assert_eq!(all.len(), count);
}

#[test]
fn every_volts() {
    for volts in 100..=1_000 {
        assert_eq!(value(b"N", volts), Ok(volts.into()));
        assert_eq!(value(b"N*115/100-4", volts), Ok(i64::from(volts * 115 / 100) - 4));
        assert_eq!(value(b"1/(N-230)", volts).is_err(), volts == 230);
    }
}

#[test]
fn every_length() {
    for len in 3..=80 {
        for target in [-2_500, -1, 1, 7, 1_150, 1_000_000] {
            let least = target.to_string().len() + 5;
            if len >= least {
                let text = of_length(target, len);
                let wanted = if len <= 64 { Ok(target) } else { Err(11) };
                assert_eq!((text.len(), value(text.as_bytes(), VOLTS)), (len, wanted), "{text}");
            }
        }
    }
}

#[test]
fn every_depth() {
    for pairs in 0..=31 {
        let wanted = if pairs <= 8 { Ok(7) } else { Err(11) };
        assert_eq!(value(in_pairs("7", pairs).as_bytes(), VOLTS), wanted, "{pairs}");
        assert_eq!(value((in_pairs("7", pairs) + "*1").as_bytes(), VOLTS), wanted, "{pairs}");
        let steps = "0+1*(".repeat(pairs) + "7" + &")".repeat(pairs);
        assert_eq!(value(steps.as_bytes(), VOLTS), wanted, "{pairs}");
    }
}

/// Every number about the ends, plain, negative and with zeros before it.
#[test]
fn every_number() {
    for number in (0..2_000).chain(999_000..1_001_000).chain([4_294_967_296, 4_294_967_297, 1 << 40]) {
        let is_number = number <= 1_000_000;
        let text = number.to_string();
        assert_eq!(value(text.as_bytes(), VOLTS), if is_number { Ok(number) } else { Err(11) });
        let wanted = if is_number && number > 0 { Ok(-number) } else { Err(11) };
        assert_eq!(value(format!("-{text}").as_bytes(), VOLTS), wanted);
        for other in ["0", "00", "-0", "+", "--", "N", " "] {
            assert_eq!(value((other.to_string() + &text).as_bytes(), VOLTS), Err(11), "{other}{text}");
        }
    }
}

/// Each operator, with small operands on both sides of zero: the quotient times the divisor comes back to the dividend,
/// up to a rest that is less than the divisor and has the dividend's sign.
#[test]
fn every_small_operation() {
    for a in -30..=30_i64 {
        for b in -30..=30_i64 {
            let of = |sign: char| value(format!("(0-{})*(0-1){sign}(0-{})*(0-1)", 30 + a, 30 + b).as_bytes(), VOLTS);
            assert_eq!([of('+'), of('-')], [Ok(a + b + 60), Ok(a - b)]);
            let spelt = |x: i64| if x < 0 { format!("(0-{})", -x) } else { format!("({x})") };
            let of = |sign: char| value(format!("{}{sign}{}", spelt(a), spelt(b)).as_bytes(), VOLTS);
            assert_eq!(of('*'), Ok(a * b));
            match of('/') {
                Ok(quotient) => {
                    let rest = a - quotient * b;
                    assert!(rest.abs() < b.abs() && rest * a >= 0, "{a} / {b}");
                }
                Err(refusal) => assert_eq!((b, refusal), (0, 12)),
            }
        }
    }
}

/// The reach by each operator: at the end, and a step past it.
#[test]
fn every_end_of_the_reach() {
    let most = "1000000*2000";
    for (text, wanted) in [
        (format!("{most}+0"), Ok(REACH)),
        (format!("{most}+1"), Err(12)),
        (format!("{most}-0"), Ok(REACH)),
        (format!("{most}-(0-1)"), Err(12)),
        (format!("0-{most}-0"), Ok(-REACH)),
        (format!("0-{most}-1"), Err(12)),
        (format!("0-{most}+0"), Ok(-REACH)),
        (format!("0-{most}+(0-1)"), Err(12)),
        (format!("{most}*1"), Ok(REACH)),
        (format!("{most}*(0-1)"), Ok(-REACH)),
        (format!("{most}/1"), Ok(REACH)),
        (format!("{most}/(0-1)"), Ok(-REACH)),
        (format!("{most}*2/2"), Err(12)),
        (format!("0-{most}-1+1"), Err(12)),
    ] {
        assert_eq!(value(text.as_bytes(), VOLTS), wanted, "{text}");
    }
}

#[test]
fn shown_values() {
    for (text, wanted) in named() {
        let Ok(number) = wanted else { continue };
        if text.starts_with('-') || text.len() > 30 || text.starts_with("((((((((") {
            continue;
        }
        for target in [1_150, -2_500] {
            let shown = |number| value(shown_as(text, number, target).as_bytes(), VOLTS);
            assert_eq!([number, number + 1].map(shown), [Ok(target), Ok(target - 1)], "{text}");
        }
    }
}

/// What is drawn is mostly good, and its near misses and noise mostly not; both ways agree on all of it.
#[test]
fn random_formulas() {
    let (mut rng, mut counts) = (Rng::new(60), [[0; 3]; 3]);
    for _ in 0..100_000 {
        let good = any(&mut rng).into_bytes();
        let texts = [missed(&mut rng, &good), noise(&mut rng), good];
        let volts = 100 + rng.below(901) as u32;
        for (text, counts) in texts.iter().zip(&mut counts) {
            let found = value(text, volts);
            assert_eq!(found, valued(&RIGHT, text, volts), "{} at {volts}", String::from_utf8_lossy(text));
            counts[[Ok(()), Err(11), Err(12)].iter().position(|kind| *kind == found.map(drop)).expect("one")] += 1;
        }
    }
    let [missed, noise, good] = counts;
    assert!(good[0] > 50_000 && good[1] > 5_000 && good[2] > 5_000, "{good:?}");
    assert!(missed[0] > 20_000 && missed[1] > 20_000 && missed[2] > 2_000, "{missed:?}");
    assert!(noise[0] > 2_000 && noise[1] > 50_000 && noise[2] > 10, "{noise:?}");
}

/// Formulas whose every byte is exchanged by every other, taken out, and put in before each.
#[test]
fn every_near_miss() {
    for (text, _) in named() {
        let text = text.as_bytes();
        for at in 0..text.len() {
            for byte in ALPHABET.iter().copied().chain([b' ', b'n', b'.', 0, b'\r', 0xFF]) {
                let (front, back) = (&text[..at], &text[at..]);
                for other in [[front, &[byte], &back[1..]].concat(), [front, &[byte], back].concat()] {
                    assert_eq!(value(&other, VOLTS), valued(&RIGHT, &other, VOLTS));
                }
            }
            let other = [&text[..at], &text[at + 1..]].concat();
            assert_eq!(value(&other, VOLTS), valued(&RIGHT, &other, VOLTS));
        }
    }
}
