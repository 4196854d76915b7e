//! Signatures and keys with one thing changed.

use crate::agree::{signed, Agree};
use peer::archive::{Category, CATEGORIES};
use peer::bits::{unpack, EXPONENT, VALUE};
use peer::rng::Rng;
use peer::scheme::cases::{flipped, spoilt};
use peer::scheme::challenges;
use peer::sizes::Sizes;

/// Where the parts of the rounds begin.
fn head(s: &Sizes) -> usize {
    s.salt + 2 * s.digest
}

/// Where each round's part begins, with the round's second challenge.
fn parts(s: &Sizes, message: &[u8], signature: &[u8]) -> Vec<(usize, u8)> {
    let (_, second) = challenges(s, message, signature).expect("honest");
    let mut at = head(s);
    let mut next = |challenge: u8| {
        at += s.part(challenge);
        (at - s.part(challenge), challenge)
    };
    second.into_iter().map(&mut next).collect()
}

/// What is due after a change in a round's part: 3 where a field is bad now, else 4.
fn due(s: &Sizes, signature: &[u8], at: usize, challenge: u8) -> u8 {
    if challenge == 1 {
        return 4;
    }
    let (y, sigma) = signature[at..at + s.reply(0)].split_at(s.packed_values());
    if unpack(VALUE, y, s.n).is_err() || unpack(EXPONENT, sigma, s.n).is_err() {
        3
    } else {
        4
    }
}

/// Every byte of salt, c and h, which change the challenges, and one of `step` bytes of the rounds is
/// changed once: each thing that a round's part holds is met in each round. The fast checker judges
/// all, the clear one of salt, c and h one of `step`, and one of `clearly` of the others.
fn bytes_changed(category: &Category, step: usize, clearly: usize) {
    let (mut t, mut rng) = (Agree::new(category, "verify, bytes changed"), Rng::new(0x6279_7465));
    let s = category.sizes;
    assert!(step <= s.round_seed, "a seed is the shortest thing in a part");
    let made = signed(&s, &mut rng, 56);
    let mut change = |at: usize| {
        let mut signature = made.signature.clone();
        signature[at] ^= 1 + rng.below(255) as u8;
        signature
    };
    for at in 0..head(&s) {
        assert_ne!(t.verify_by(at % step == 0, &made.key, &made.message, &change(at)), 0, "byte {at}");
    }
    for (start, challenge) in parts(&s, &made.message, &made.signature) {
        for at in (start..start + s.part(challenge)).filter(|at| at % step == 0) {
            let signature = change(at);
            let answer = t.verify_by(at / step % clearly == 0, &made.key, &made.message, &signature);
            assert_eq!(answer, due(&s, &signature, start, challenge), "byte {at}");
        }
    }
    t.finish(head(&s) + (s.signature() - head(&s)) / step, &[3, 4]);
}

#[test]
fn every_byte() {
    for (category, (step, clearly)) in CATEGORIES.iter().zip([(1, 7), (11, 100), (23, 100)]) {
        bytes_changed(category, step, clearly);
    }
}

fn with_bits(bytes: &[u8], bits: impl IntoIterator<Item = usize>) -> Vec<u8> {
    let mut out = bytes.to_vec();
    bits.into_iter().for_each(|k| out[k / 8] |= 1 << (k % 8));
    out
}

type Bits = std::ops::Range<usize>;

/// The spare bits of `count` fields that begin at byte `start`, one by one.
fn spare(start: usize, width: usize, count: usize) -> impl Iterator<Item = Bits> {
    let end = 8 * (start + (width * count).div_ceil(8));
    (8 * start + width * count..end).map(|k| k..k + 1)
}

/// One field of ones.
fn field(start: usize, width: usize, at: usize) -> Bits {
    8 * start + width * at..8 * start + width * (at + 1)
}

/// The faults of a part under 0 that begins at `start`: the spare bits of y and σ, and a field of each
/// at these places.
fn faults(s: &Sizes, start: usize, places: impl Iterator<Item = usize>) -> Vec<Bits> {
    let sigma = start + s.packed_values();
    let fields = places.flat_map(|place| [field(start, 7, place), field(sigma, 3, place)]);
    spare(start, 7, s.n).chain(spare(sigma, 3, s.n)).chain(fields).collect()
}

/// Spare bits one by one, and fields of 127 and 7: in the key each, in each round's y and σ the spare
/// ones and one field, in one round every field. The clear checker judges one of `clearly`.
fn bad_fields(category: &Category, clearly: usize) {
    let (mut t, mut rng) = (Agree::new(category, "verify, bad fields"), Rng::new(0x7370_6172));
    let s = category.sizes;
    let made = signed(&s, &mut rng, 20);
    let fields = (0..s.rows()).map(|at| field(s.key_seed, 7, at));
    for bits in fields.chain(spare(s.key_seed, 7, s.rows())) {
        assert_eq!(t.verify(&with_bits(&made.key, bits), &made.message, &made.signature), 3);
    }
    let zeros = parts(&s, &made.message, &made.signature).into_iter().filter(|part| part.1 == 0);
    for (at, (start, _)) in zeros.enumerate() {
        let one = if at % 2 == 0 { rng.below(s.n) } else { s.n - 1 };
        let places = if at == 40 { 0..s.n } else { one..one + 1 };
        for (turn, bits) in faults(&s, start, places).into_iter().enumerate() {
            let signature = with_bits(&made.signature, bits);
            assert_eq!(t.verify_by((at + turn) % clearly == 0, &made.key, &made.message, &signature), 3);
        }
    }
    let in_key = s.rows() + spare(0, 7, s.rows()).count();
    let in_round = spare(0, 7, s.n).count() + spare(0, 3, s.n).count() + 2;
    t.finish(in_key + (s.t - s.w) * in_round + 2 * (s.n - 1), &[3]);
}

#[test]
fn spare_bits_and_bad_fields() {
    for (category, clearly) in CATEGORIES.iter().zip([5, 40, 80]) {
        bad_fields(category, clearly);
    }
}

/// Signatures cut and lengthened, other keys, other messages, and several faults at random.
fn other_damage(category: &Category, step: usize, turns: usize) {
    let (mut t, mut rng) = (Agree::new(category, "verify, other damage"), Rng::new(0x6F74_6865));
    let s = category.sizes;
    let (made, other) = (signed(&s, &mut rng, 40), signed(&s, &mut rng, 40));
    let (start, part, whole) = (head(&s), s.part(1), s.signature());
    for len in
        [0, 1, s.salt, start, start + 1, start + part, whole - part, whole - 1, whole + 1, whole + part, 2 * whole]
    {
        let mut signature = made.signature.clone();
        signature.resize(len, 0);
        assert_eq!(t.verify(&made.key, &made.message, &signature), 1);
    }
    assert_eq!(t.verify(&made.key, &vec![0; s.message + 1], &made.signature), 1);
    for (key, message) in [(&other.key, &made.message), (&made.key, &other.message)] {
        assert_ne!(t.verify(key, message, &made.signature), 0);
    }
    for bit in 0..8 * s.key() {
        let key = flipped(&made.key, bit);
        assert_ne!(t.verify_by(bit % step == 0, &key, &made.message, &made.signature), 0, "bit {bit} of the key");
    }
    for _ in 0..turns {
        let [key, message, signature] =
            [&made.key, &made.message, &made.signature].map(|bytes| spoilt(&mut rng, bytes));
        t.verify(&key, &message, &signature);
    }
    t.finish(14 + 8 * s.key() + turns, &[0, 1, 3, 4]);
}

#[test]
fn anything_else() {
    for (category, (step, turns)) in CATEGORIES.iter().zip([(1, 400), (31, 100), (61, 60)]) {
        other_damage(category, step, turns);
    }
}
