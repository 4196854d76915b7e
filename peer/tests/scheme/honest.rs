//! Keys and signatures of random seeds, and that they hold.

use crate::agree::Agree;
use peer::archive::{Category, CATEGORIES};
use peer::rng::Rng;

/// Lengths of messages: the ends of what is taken, a line's length, anything.
fn message_len(rng: &mut Rng, turn: usize) -> usize {
    match turn % 5 {
        0 if turn % 100 == 0 => 65_536,
        0 => 0,
        1 => 1,
        2 => 72,
        _ => rng.below(400),
    }
}

fn compare(category: &Category, turns: usize) {
    let [mut keys, mut signs, mut checks] =
        ["make_key", "sign", "verify, honest"].map(|what| Agree::new(category, what));
    let (s, mut rng) = (category.sizes, Rng::new(0x7369_676E));
    for turn in 0..turns {
        let len = message_len(&mut rng, turn);
        let parts = [rng.bytes(s.key_seed), rng.bytes(s.round_seed), rng.bytes(s.salt), rng.bytes(len)];
        let [private, master, salt, message] = &parts;
        keys.make_key(private, s.key());
        signs.sign(&parts, s.signature());
        let (mut key, mut signature) = (vec![0; s.key()], vec![0; s.signature()]);
        assert_eq!(category.make_key(private, &mut key), 0);
        assert_eq!(category.sign(private, master, salt, message, &mut signature), 0);
        assert_eq!(checks.verify_by(turn % 10 == 0, &key, message, &signature), 0);
    }
    [keys, signs, checks].into_iter().for_each(|t| t.finish(turns, &[0]));
}

#[test]
fn keys_and_signatures() {
    for (category, turns) in CATEGORIES.iter().zip([2_000, 200, 100]) {
        compare(category, turns);
    }
}

/// Many more keys: they are cheap.
#[test]
fn keys() {
    for (category, turns) in CATEGORIES.iter().zip([10_000, 1_000, 500]) {
        let (mut t, mut rng) = (Agree::new(category, "make_key, keys alone"), Rng::new(0x6B65_7973));
        let s = category.sizes;
        for fill in [0x00, 0xFF] {
            t.make_key(&vec![fill; s.key_seed], s.key());
        }
        for _ in 0..turns {
            t.make_key(&rng.bytes(s.key_seed), s.key());
        }
        t.finish(turns, &[0]);
    }
}
