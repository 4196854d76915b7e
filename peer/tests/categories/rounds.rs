//! What the round examiner is given.

use crate::world::{each_pair, lengths, name, resized, World};
use peer::harness::Tally;
use peer::scheme::{self, RoundCase};
use peer::sizes::Sizes;

/// Every buffer of a case.
fn buffers(case: &mut RoundCase) -> [&mut Vec<u8>; 6] {
    let RoundCase { key, salt, commitment_0, commitment_1, response, reply, .. } = case;
    [key, salt, commitment_0, commitment_1, response, reply]
}

fn sizes(case: &RoundCase) -> [usize; 6] {
    buffers(&mut case.clone()).map(|buffer| buffer.len())
}

/// The sizes that a case must have under its challenge.
fn right(s: &Sizes, second: u32) -> [usize; 6] {
    [s.key(), s.salt, s.digest, s.digest, s.digest, s.reply(second as u8)]
}

/// Examines in both programs: 1 wherever a size is not the category's own.
fn examine(t: &mut Tally, own: &World, case: &RoundCase) {
    let (s, given) = (own.category.sizes, case.clone());
    let answer = own.category.verify_round(&given);
    t.count(answer, scheme::verify_round(&s, case), || format!("{case:02x?}"));
    assert!(given == *case, "what was examined");
    assert_eq!(answer, u8::from(sizes(case) != right(&s, case.second_challenge)), "{:?}", sizes(case));
}

/// Each buffer alone in every size of the other, and all at once, under both challenges.
#[test]
fn rounds() {
    each_pair(|own, other| {
        let mut t = Tally::new(name("verify_round", own, other));
        for (honest, strange) in own.rounds.iter().zip(&other.rounds) {
            examine(&mut t, own, honest);
            examine(&mut t, own, strange);
            for at in 0..6 {
                let mut case = honest.clone();
                *buffers(&mut case)[at] = buffers(&mut strange.clone())[at].clone();
                examine(&mut t, own, &case);
                for len in lengths(&other.category.sizes) {
                    let mut case = honest.clone();
                    let buffer = &mut buffers(&mut case)[at];
                    **buffer = resized(buffer, len);
                    examine(&mut t, own, &case);
                }
            }
        }
        t.finish(240, &[0, 1]);
    });
}
