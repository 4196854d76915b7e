//! Every buffer a byte short and long, and every pair of faults: the earlier refusal wins.

use crate::agree::{signed, Agree, Parts};
use peer::archive::{Category, CATEGORIES};
use peer::rng::Rng;
use peer::sizes::Sizes;

/// The bytes, or these a byte shorter or longer.
fn resized(bytes: &[u8], how: usize) -> Vec<u8> {
    let mut out = bytes.to_vec();
    out.resize(bytes.len() + how - 1, 0);
    out
}

/// Every choice of short, right and long for each of `count` buffers.
fn choices(count: u32) -> impl Iterator<Item = Vec<usize>> {
    (0..3usize.pow(count)).map(move |n| (0..count).map(|digit| n / 3usize.pow(digit) % 3).collect())
}

fn sizes_at(category: &Category) {
    let (mut keys, mut signs) = (Agree::new(category, "make_key, sizes"), Agree::new(category, "sign, sizes"));
    let (s, mut rng) = (category.sizes, Rng::new(1));
    let made = signed(&s, &mut rng, 65_536);
    for how in choices(2) {
        keys.make_key(&resized(&made.private_seed, how[0]), s.key() + how[1] - 1);
    }
    for how in choices(5) {
        let whole = [&made.private_seed, &made.master_seed, &made.salt, &made.message];
        let parts: Parts = std::array::from_fn(|at| resized(whole[at], how[at]));
        let right = how[..3] == [1, 1, 1] && how[3] < 2 && how[4] == 1;
        assert_eq!(signs.sign(&parts, s.signature() + how[4] - 1), u8::from(!right));
    }
    for len in [0, 1, s.round_seed, 2 * s.key_seed] {
        keys.make_key(&rng.bytes(len), s.key());
        keys.make_key(&made.private_seed, len);
    }
    keys.finish(17, &[0, 1]);
    signs.finish(243, &[0, 1]);
}

#[test]
fn sizes_of_signing() {
    CATEGORIES.iter().for_each(sizes_at);
}

#[derive(Clone)]
struct Check {
    key: Vec<u8>,
    message: Vec<u8>,
    signature: Vec<u8>,
}

type Spoil = fn(&Sizes, &mut Check);

/// Faults of a check, each with its refusal, in the order in which they are looked at. The bytes of
/// the first rounds are all ones, a bad field under 0; under 1 they are the seed.
const FAULTS: [(u8, Spoil); 9] = [
    (1, |s, c| c.key.truncate(s.key() - 1)),
    (1, |s, c| c.key.resize(s.key() + 1, 0)),
    (1, |s, c| c.message = vec![0; s.message + 1]),
    (1, |s, c| c.signature.truncate(s.signature() - 1)),
    (1, |s, c| c.signature.resize(s.signature() + 1, 0)),
    (3, |s, c| c.key[s.key() - 1] |= 0x80),
    (3, |s, c| c.key[s.key_seed..s.key_seed + 8].fill(0xFF)),
    (3, |s, c| c.signature[s.salt + 2 * s.digest..][..12 * s.part(1)].fill(0xFF)),
    (4, |s, c| c.signature[s.signature() - 1] ^= 1),
];

fn pairs_at(category: &Category) {
    let (mut t, mut rng) = (Agree::new(category, "verify, pairs of faults"), Rng::new(2));
    let s = category.sizes;
    for len in [0, 72, 65_536] {
        let made = signed(&s, &mut rng, len);
        let honest = Check { key: made.key, message: made.message, signature: made.signature };
        let mut answer = |spoils: &[Spoil]| {
            let mut c = honest.clone();
            spoils.iter().for_each(|spoil| spoil(&s, &mut c));
            t.verify(&c.key, &c.message, &c.signature)
        };
        assert_eq!(answer(&[]), 0);
        for (at, &(refusal, spoil)) in FAULTS.iter().enumerate() {
            assert_eq!(answer(&[spoil]), refusal, "fault {at}");
            for &(_, later) in &FAULTS[at + 1..] {
                // another size last: the others write at fixed places
                assert_eq!(answer(&[later, spoil]), refusal, "fault {at} first");
            }
        }
    }
    t.finish(3 * (1 + 9 + 36), &[0, 1, 3, 4]);
}

#[test]
fn pairs_of_faults() {
    CATEGORIES.iter().for_each(pairs_at);
}
