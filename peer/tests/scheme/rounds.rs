//! The round examiner.

use crate::agree::Agree;
use peer::archive::{Category, CATEGORIES};
use peer::rng::Rng;
use peer::scheme::cases::{faulty_rounds, round_case, Committed};
use peer::scheme::RoundCase;

/// Honest replies, and replies with one fault or several.
#[test]
fn replies() {
    for (category, turns) in CATEGORIES.iter().zip([10_000, 1_000, 500]) {
        let (mut t, mut rng) = (Agree::new(category, "verify_round"), Rng::new(0x726F_756E));
        for _ in 0..turns {
            t.verify_round(&round_case(&category.sizes, &mut rng));
        }
        t.finish(turns, &[0, 1, 3, 4]);
    }
}

/// Every buffer of a case.
fn buffers(case: &mut RoundCase) -> [&mut Vec<u8>; 6] {
    [&mut case.key, &mut case.salt, &mut case.commitment_0, &mut case.commitment_1, &mut case.response, &mut case.reply]
}

/// Each buffer short and long, each byte of a reply changed, and every pair of faults.
fn faults_at(category: &Category) {
    let (mut t, mut rng) = (Agree::new(category, "verify_round, faults"), Rng::new(0x6661_756C));
    let s = category.sizes;
    for second in [0, 1] {
        let honest = Committed::draw(&s, &mut rng).case(&s, 9, second);
        for at in 0..6 {
            for long in [false, true] {
                let mut case = honest.clone();
                let len = buffers(&mut case)[at].len();
                buffers(&mut case)[at].resize(if long { len + 1 } else { len - 1 }, 0);
                assert_eq!(t.verify_round(&case), 1);
            }
        }
        for at in 0..honest.reply.len() {
            let mut case = honest.clone();
            case.reply[at] ^= 1 + rng.below(255) as u8;
            assert_ne!(t.verify_round(&case), 0);
        }
        for (mut case, wanted) in faulty_rounds(&honest) {
            assert_eq!(t.verify_round(&case), wanted);
            case.second_challenge = 2;
            t.verify_round(&case);
        }
    }
    t.finish(600, &[1, 3, 4]);
}

#[test]
fn faults() {
    CATEGORIES.iter().for_each(faults_at);
}

/// Numbers at the ends of their ranges and far outside; a reply is not looked at under a challenge
/// that is none.
fn numbers_at(category: &Category) {
    let (mut t, mut rng) = (Agree::new(category, "verify_round, numbers"), Rng::new(0x6E75_6D62));
    let (s, rounds) = (category.sizes, category.sizes.t as u32);
    let wide = [0, 1, 2, 126, 127, 128, 255, 256, 257, 300, 65_535, 65_536, 65_537, 1 << 31, u32::MAX];
    for second in [0, 1] {
        let committed = Committed::draw(&s, &mut rng);
        for first in 1..127 {
            assert_eq!(t.verify_round(&committed.case(&s, first, second)), 0);
        }
        let honest = committed.case(&s, 1, second);
        let own = [rounds - 1, rounds, rounds + 1, honest.round + 256, honest.round + 65_536];
        for number in wide.into_iter().chain(own) {
            t.verify_round(&RoundCase { round: number, ..honest.clone() });
            t.verify_round(&RoundCase { first_challenge: number, ..honest.clone() });
            for len in [s.reply(0), s.reply(1), 1].into_iter().flat_map(|right| right - 1..=right + 1) {
                let reply = vec![1; len];
                t.verify_round(&RoundCase { second_challenge: number, reply, ..honest.clone() });
            }
        }
    }
    t.finish(500, &[0, 1, 3, 4]);
}

#[test]
fn numbers() {
    CATEGORIES.iter().for_each(numbers_at);
}
