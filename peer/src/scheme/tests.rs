//! The scheme agrees with itself: what it signs it accepts, each reply passes the examiner, and every
//! refusal comes in its place.

use super::cases::{attempt, faulty_rounds, flipped, Committed, Signed};
use super::*;
use crate::rng::Rng;
use crate::sizes::{CATEGORIES, CATEGORY_1, CATEGORY_3, CATEGORY_5, TINY};
use crate::vectors::powers;

/// The first signing that is not refused.
fn signed(s: &Sizes, rng: &mut Rng) -> Signed {
    loop {
        let (_, sign_answer, made) = attempt(s, rng, 20);
        if sign_answer == 0 {
            return made;
        }
    }
}

#[test]
fn what_is_signed_is_accepted() {
    let mut rng = Rng::new(10);
    for s in CATEGORIES {
        for message_len in [0, 56, 65_536] {
            let (key_answer, sign_answer, made) = attempt(&s, &mut rng, message_len);
            assert_eq!((key_answer, sign_answer), (0, 0));
            assert_eq!(verify(&s, &made.key, &made.message, &made.signature), 0);
        }
    }
}

#[test]
fn what_is_signed_at_tiny_sizes_is_accepted() {
    let mut rng = Rng::new(11);
    let mut signed = 0;
    for turn in 0..3000 {
        let (key_answer, sign_answer, made) = attempt(&TINY, &mut rng, turn % 5);
        if sign_answer == 0 {
            assert_eq!(key_answer, 0);
            assert_eq!(verify(&TINY, &made.key, &made.message, &made.signature), 0);
            signed += 1;
        } else {
            assert!(sign_answer == 2 && made.signature.iter().all(|&x| x == 0));
        }
    }
    assert!((500..2500).contains(&signed), "{signed} of 3000 signed");
}

#[test]
fn a_changed_bit_is_refused() {
    for (s, turns) in [(CATEGORY_1, 120), (CATEGORY_3, 21), (CATEGORY_5, 12)] {
        let mut rng = Rng::new(12);
        let made = signed(&s, &mut rng);
        for turn in 0..turns {
            let salt_c_h = 8 * (s.salt + 2 * s.digest);
            let bit = if turn < turns / 3 { rng.below(salt_c_h) } else { rng.below(8 * s.signature()) };
            assert_ne!(verify(&s, &made.key, &made.message, &flipped(&made.signature, bit)), 0, "bit {bit}");
        }
        for bit in (0..32).step_by(120 / turns) {
            assert_ne!(verify(&s, &made.key, &flipped(&made.message, bit), &made.signature), 0);
        }
        for bit in (0..8 * s.key()).step_by(2280 / turns) {
            assert_ne!(verify(&s, &flipped(&made.key, bit), &made.message, &made.signature), 0, "bit {bit} of the key");
        }
    }
}

/// What the examiner says of an honest reply, after `change` had its way with the case.
fn answer(s: &Sizes, committed: &Committed, first: u8, second: u32, change: impl Fn(&mut RoundCase)) -> u8 {
    let mut case = committed.case(s, first, second);
    change(&mut case);
    verify_round(s, &case)
}

#[test]
fn honest_replies_pass_and_open_the_key() {
    let mut rng = Rng::new(13);
    for (s, turns) in [(CATEGORY_1, 5), (CATEGORY_3, 3), (CATEGORY_5, 2), (TINY, 300)] {
        for _ in 0..turns {
            let replies = Committed::draw(&s, &mut rng);
            for second in [0, 1] {
                assert_eq!(answer(&s, &replies, 1 + rng.below(126) as u8, second, |_| ()), 0);
            }
            let (sigma, mask) = (&replies.round.transformation, &replies.round.mask.exponents);
            let opened: Vec<u8> = sigma.iter().zip(mask).map(|(a, b)| (a + b) % 7).collect();
            let syndrome = syndrome(s.k, &replies.matrix, &powers(&opened));
            assert_eq!(strings::packed_values(&syndrome), replies.key[s.key_seed..]);
        }
    }
}

#[test]
fn the_examiner_refuses_in_order() {
    let mut rng = Rng::new(14);
    for s in CATEGORIES {
        let replies = Committed::draw(&s, &mut rng);
        for second in [0, 1] {
            for (case, wanted) in faulty_rounds(&replies.case(&s, 9, second)) {
                assert_eq!(verify_round(&s, &case), wanted, "{case:02x?}");
            }
        }
    }
}

#[test]
fn the_examiner_looks_at_no_reply_under_another_challenge() {
    let mut rng = Rng::new(15);
    for s in CATEGORIES {
        let replies = Committed::draw(&s, &mut rng);
        for second in [2, 3, 256, u32::MAX] {
            for len in [0, s.reply(1), s.reply(0), s.reply(0) + 1] {
                let answer = answer(&s, &replies, 9, 0, |c| (c.second_challenge, c.reply) = (second, vec![0; len]));
                assert_eq!(answer, 3);
            }
        }
    }
}

#[test]
fn a_bad_field_in_a_reply_is_refused_before_the_digests() {
    let mut rng = Rng::new(16);
    for s in CATEGORIES {
        let (replies, values) = (Committed::draw(&s, &mut rng), s.packed_values());
        // a value of 127, a spare bit after the values, an exponent of 7, a spare bit after the exponents
        for (at, bits) in [(0, 0x7F), (values - 1, 0x80), (values, 7), (s.reply(0) - 1, 0x80)] {
            let both = |c: &mut RoundCase| {
                c.reply[at] |= bits;
                c.response[0] ^= 1;
            };
            assert_eq!(answer(&s, &replies, 9, 0, both), 3);
        }
    }
}

/// Every answer of every entry comes up at tiny sizes.
#[test]
fn every_answer_is_reached() {
    let mut rng = Rng::new(17);
    let s = TINY;
    let (mut keys, mut signs, mut checks, mut rounds) = ([0; 5], [0; 5], [0; 5], [0; 5]);
    for _ in 0..2000 {
        let (key_answer, sign_answer, made) = attempt(&s, &mut rng, 3);
        keys[usize::from(key_answer)] += 1;
        signs[usize::from(sign_answer)] += 1;
        let good = sign_answer == 0;
        let key = if good { made.key } else { rng.bytes(s.key()) };
        let mut signature = if good { made.signature } else { rng.bytes(s.signature()) };
        if good && rng.below(2) == 0 {
            signature = flipped(&signature, rng.below(8 * s.signature()));
        }
        checks[usize::from(verify(&s, &key, &made.message, &signature))] += 1;
        let replies = Committed::draw(&s, &mut rng);
        let (noise, key) = (rng.bytes(s.reply(1)), rng.bytes(s.key_seed));
        rounds[usize::from(answer(&s, &replies, 9, 1, |c| c.reply = noise.clone()))] += 1;
        rounds[usize::from(answer(&s, &replies, 9, 0, |c| c.key[..s.key_seed].copy_from_slice(&key)))] += 1;
        rounds[usize::from(answer(&s, &replies, 9, 0, |c| c.reply[0] |= 0x7F))] += 1;
        rounds[usize::from(answer(&s, &replies, 9, 0, |_| ()))] += 1;
    }
    assert!(keys[0] > 0 && keys[2] > 0, "{keys:?}");
    assert!(signs[0] > 0 && signs[2] > 0, "{signs:?}");
    assert!([0, 2, 3, 4].iter().all(|&answer: &usize| checks[answer] > 0), "{checks:?}");
    assert!([0, 2, 3, 4].iter().all(|&answer: &usize| rounds[answer] > 0), "{rounds:?}");
}

#[test]
fn wrong_sizes_are_refused_first() {
    let mut rng = Rng::new(18);
    for s in CATEGORIES {
        let seed = |len: usize| vec![7; len];
        let mut signature = vec![0; s.signature()];
        let mut signing = |a, b, c, d| sign(&s, &seed(a), &seed(b), &seed(c), &seed(d), &mut signature);
        let (a, b, c) = (s.key_seed, s.round_seed, s.salt);
        for (a, b, c, d) in [(a - 1, b, c, 0), (a, b + 1, c, 0), (a, b, 0, 0), (a, b, c, 65_537)] {
            assert_eq!(signing(a, b, c, d), 1);
        }
        assert_eq!(sign(&s, &seed(a), &seed(b), &seed(c), b"", &mut vec![0; s.signature() + 1]), 1);
        let made = signed(&s, &mut rng);
        let bad_key = [&made.key[..s.key() - 1], &[0xFF]].concat();
        assert_eq!(verify(&s, &bad_key, &made.message, &made.signature), 3);
        assert_eq!(verify(&s, &bad_key, &made.message, &made.signature[1..]), 1);
        assert_eq!(verify(&s, &bad_key[1..], &made.message, &made.signature), 1);
        assert_eq!(verify(&s, &bad_key, &vec![0; 65_537], &made.signature), 1);
    }
}
