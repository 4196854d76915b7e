//! The proved functions of keys, signatures and checks beside the independent program at tiny sizes,
//! where every draw is short often enough to be met.

mod archive;
mod short;
mod tally;

use archive::{Tiny, TINIES};
use peer::rng::Rng;
use peer::scheme::cases::{attempt, flipped, Committed, Signed};
use peer::scheme::{self, RoundCase};
use peer::sizes::Sizes;
use short::{to_blame, Place};
use tally::Tally;

/// A string that is now and then a byte too long or too short.
fn missized(rng: &mut Rng, bytes: &[u8]) -> Vec<u8> {
    let mut out = bytes.to_vec();
    match rng.below(48) {
        0 => out.push(0),
        1 => out.truncate(bytes.len() - 1),
        _ => (),
    }
    out
}

/// A string with a bit flipped, with another stretch somewhere, or with other bytes throughout.
fn damaged(rng: &mut Rng, bytes: &[u8]) -> Vec<u8> {
    let mut out = bytes.to_vec();
    let from = rng.below(bytes.len());
    match rng.below(3) {
        0 => out = flipped(bytes, rng.below(8 * bytes.len())),
        1 => rng.fill(&mut out[from..]),
        _ => rng.fill(&mut out),
    }
    missized(rng, &out)
}

fn compare_make_key(tiny: &Tiny, tally: &mut Tally, private_seed: &[u8], len: usize) {
    let plain = |key: &mut [u8]| scheme::make_key(&tiny.sizes, private_seed, key);
    let answer = |s: &Sizes| scheme::make_key(s, private_seed, &mut vec![0; len]);
    let place = to_blame(&tiny.sizes, Place::KeyExponents, answer);
    tally.agree_on_bytes(len, |key| tiny.make_key(private_seed, key), plain, place);
}

#[test]
fn make_key() {
    for tiny in &TINIES {
        let (mut tally, mut rng) = (Tally::new(tiny, "make_key"), Rng::new(0x6B65_7973));
        for _ in 0..20_000 {
            let drawn = rng.bytes(tiny.sizes.key_seed);
            let len = missized(&mut rng, &vec![0; tiny.sizes.key()]).len();
            compare_make_key(tiny, &mut tally, &missized(&mut rng, &drawn), len);
        }
        tally.finish(2, &[Place::Matrix, Place::KeyExponents]);
    }
}

/// The draw to blame where signing into `len` bytes is refused.
fn sign_place(s: &Sizes, made: &Signed, len: usize) -> Option<Place> {
    let Signed { private_seed, master_seed, salt, message, .. } = made;
    let has_key = scheme::make_key(s, private_seed, &mut vec![0; s.key()]) == 0;
    let exponents = if has_key { Place::RoundExponents } else { Place::KeyExponents };
    to_blame(s, exponents, |s| scheme::sign(s, private_seed, master_seed, salt, message, &mut vec![0; len]))
}

fn compare_sign(tiny: &Tiny, tally: &mut Tally, made: &Signed, len: usize) {
    let Signed { private_seed, master_seed, salt, message, .. } = made;
    let proved = |sig: &mut [u8]| tiny.sign(private_seed, master_seed, salt, message, sig);
    let plain = |sig: &mut [u8]| scheme::sign(&tiny.sizes, private_seed, master_seed, salt, message, sig);
    tally.agree_on_bytes(len, proved, plain, sign_place(&tiny.sizes, made, len));
}

/// An honest signing that is not refused.
fn signed(s: &Sizes, rng: &mut Rng, message_len: usize) -> Signed {
    loop {
        let (_, answer, made) = attempt(s, rng, message_len);
        if answer == 0 {
            return made;
        }
    }
}

fn sign_at(tiny: &Tiny) {
    let (s, mut tally, mut rng) = (&tiny.sizes, Tally::new(tiny, "sign"), Rng::new(0x7369_676E));
    for turn in 0..20_000 {
        let (_, _, mut made) = attempt(s, &mut rng, turn % 200);
        for part in [&mut made.private_seed, &mut made.master_seed, &mut made.salt] {
            *part = missized(&mut rng, part);
        }
        let len = missized(&mut rng, &made.signature).len();
        compare_sign(tiny, &mut tally, &made, len);
    }
    let mut made = signed(s, &mut rng, 4);
    for message_len in [65_536, 65_537] {
        made.message = rng.bytes(message_len);
        compare_sign(tiny, &mut tally, &made, s.signature());
    }
    // one more message until the second challenge is short
    while sign_place(s, &made, s.signature()) != Some(Place::SecondChallenge) {
        made.message = rng.bytes(8);
    }
    compare_sign(tiny, &mut tally, &made, s.signature());
    let challenges = [Place::FirstChallenges, Place::SecondChallenge];
    let rounds = [Place::RoundExponents, Place::RoundValues];
    tally.finish(2, &[&[Place::Matrix, Place::KeyExponents], &rounds[..], &challenges].concat());
}

#[test]
fn sign() {
    TINIES.iter().for_each(sign_at);
}

fn verify_place(s: &Sizes, key: &[u8], message: &[u8], signature: &[u8]) -> Option<Place> {
    to_blame(s, Place::RoundExponents, |s| scheme::verify(s, key, message, signature))
}

fn compare_verify(tiny: &Tiny, tally: &mut Tally, key: &[u8], message: &[u8], signature: &[u8]) {
    let plain = scheme::verify(&tiny.sizes, key, message, signature);
    let place = verify_place(&tiny.sizes, key, message, signature);
    tally.agree(tiny.verify(key, message, signature), plain, place);
}

fn verify_at(tiny: &Tiny) {
    let (s, mut tally, mut rng) = (&tiny.sizes, Tally::new(tiny, "verify"), Rng::new(0x7665_7269));
    for turn in 0..4_000 {
        let Signed { key, message, signature, .. } = signed(s, &mut rng, turn % 200);
        compare_verify(tiny, &mut tally, &key, &message, &signature);
        compare_verify(tiny, &mut tally, &damaged(&mut rng, &key), &message, &signature);
        compare_verify(tiny, &mut tally, &key, &rng.bytes(message.len()), &signature);
        for _ in 0..4 {
            compare_verify(tiny, &mut tally, &key, &message, &damaged(&mut rng, &signature));
        }
    }
    let Signed { key, mut signature, .. } = signed(s, &mut rng, 4);
    for message_len in [65_536, 65_537] {
        compare_verify(tiny, &mut tally, &key, &rng.bytes(message_len), &signature);
    }
    // one more signature until the second challenge is short
    while verify_place(s, &key, b"", &signature) != Some(Place::SecondChallenge) {
        rng.fill(&mut signature);
    }
    compare_verify(tiny, &mut tally, &key, b"", &signature);
    let challenges = [Place::FirstChallenges, Place::SecondChallenge];
    tally.finish(4, &[&[Place::Matrix, Place::RoundExponents, Place::RoundValues], &challenges[..]].concat());
}

#[test]
fn verify() {
    TINIES.iter().for_each(verify_at);
}

fn compare_verify_round(tiny: &Tiny, tally: &mut Tally, case: &RoundCase) {
    let place = to_blame(&tiny.sizes, Place::RoundExponents, |s| scheme::verify_round(s, case));
    tally.agree(tiny.verify_round(case), scheme::verify_round(&tiny.sizes, case), place);
}

/// Spoils one part of a case of so many rounds.
fn spoil(rng: &mut Rng, c: &mut RoundCase, rounds: u32) {
    match rng.below(9) {
        0 => c.key = damaged(rng, &c.key),
        1 => c.salt = damaged(rng, &c.salt),
        2 => c.commitment_0 = damaged(rng, &c.commitment_0),
        3 => c.commitment_1 = damaged(rng, &c.commitment_1),
        4 => c.response = damaged(rng, &c.response),
        5 => c.reply = damaged(rng, &c.reply),
        6 => c.round = [0, 1, rounds, rounds + 1, 65_536 + c.round][rng.below(5)],
        7 => c.first_challenge = [0, 1, 126, 127, 256 + c.first_challenge][rng.below(5)],
        _ => c.second_challenge = [1 - c.second_challenge, 2, 256, 257][rng.below(4)],
    }
}

fn verify_round_at(tiny: &Tiny) {
    let (s, mut tally, mut rng) = (&tiny.sizes, Tally::new(tiny, "verify_round"), Rng::new(0x726F_756E));
    for turn in 0..10_000 {
        let first = 1 + rng.below(126) as u8;
        let mut case = Committed::draw(s, &mut rng).case(s, first, turn % 2);
        compare_verify_round(tiny, &mut tally, &case);
        for _ in 0..2 {
            let mut once = case.clone();
            spoil(&mut rng, &mut once, s.t as u32);
            compare_verify_round(tiny, &mut tally, &once);
        }
        rng.fill(&mut case.reply);
        compare_verify_round(tiny, &mut tally, &case);
    }
    tally.finish(4, &[Place::Matrix, Place::RoundExponents, Place::RoundValues]);
}

#[test]
fn verify_round() {
    TINIES.iter().for_each(verify_round_at);
}
