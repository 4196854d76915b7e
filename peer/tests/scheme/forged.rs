//! Signatures from a signer that cheats.

use crate::agree::Agree;
use peer::archive::{Category, CATEGORIES};
use peer::rng::Rng;
use peer::scheme::forge::Forger;

fn key_of(category: &Category, private_seed: &[u8]) -> Vec<u8> {
    let mut key = vec![0; category.sizes.key()];
    assert_eq!(category.make_key(private_seed, &mut key), 0);
    key
}

/// Any bytes as h, or as c, with honest rounds under the challenges that they draw: one comparison
/// alone refuses each. The first half differs from the honest digest in one bit, in one byte after the
/// other.
fn claimed(category: &Category, turns: usize) {
    let (mut t, mut rng) = (Agree::new(category, "verify, forged digests"), Rng::new(0x666F_7267));
    let (s, half) = (category.sizes, turns / 2);
    for turn in 0..turns {
        let (private_seed, message) = (rng.bytes(s.key_seed), rng.bytes(turn));
        let key = key_of(category, &private_seed);
        let forger = Forger::new(&s, &mut rng, &private_seed, &message).expect("no short draw");
        let honest = forger.claim(None, None).expect("no short draw");
        assert_eq!(t.verify(&key, &message, &honest), 0);
        for (claims_h, at) in [(false, s.salt), (true, s.salt + s.digest)] {
            let mut any = honest[at..at + s.digest].to_vec();
            if turn < half {
                any[turn * s.digest / half] ^= 1 << (turn % 8);
            } else {
                rng.fill(&mut any);
            }
            let claimed = if claims_h { forger.claim(None, Some(&any)) } else { forger.claim(Some(&any), None) };
            assert_eq!(t.verify(&key, &message, &claimed.expect("no short draw")), 4);
        }
    }
    t.finish(3 * turns, &[0, 4]);
}

#[test]
fn claimed_digests() {
    for (category, turns) in CATEGORIES.iter().zip([64, 16, 8]) {
        claimed(category, turns);
    }
}

/// Rounds without the key, each committed to for guessed challenges.
#[test]
fn guessed_challenges() {
    for (category, turns) in CATEGORIES.iter().zip([60, 12, 8]) {
        let (mut t, mut rng) = (Agree::new(category, "verify, guessed challenges"), Rng::new(0x6775_6573));
        let s = category.sizes;
        for turn in 0..turns {
            let key = key_of(category, &rng.bytes(s.key_seed));
            let (own_seed, message) = (rng.bytes(s.key_seed), rng.bytes(turn));
            let mut forger = Forger::new(&s, &mut rng, &own_seed, &message).expect("no short draw");
            forger.guess(&mut rng, &key).expect("no short draw");
            assert_eq!(t.verify(&key, &message, &forger.claim(None, None).expect("no short draw")), 4);
        }
        t.finish(turns, &[4]);
    }
}
