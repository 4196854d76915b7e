//! A signer that cheats. What it makes is well formed to the last byte, and no check but the two
//! comparisons at the end can refuse it.

use super::*;
use crate::rng::Rng;

/// Rounds committed to, before anything is claimed.
pub struct Forger {
    sizes: Sizes,
    salt: Vec<u8>,
    message: Vec<u8>,
    rounds: Vec<Round>,
}

impl Forger {
    /// A forger with a private seed of its own. None where a draw is short.
    pub fn new(s: &Sizes, rng: &mut Rng, private_seed: &[u8], message: &[u8]) -> Option<Forger> {
        let (master_seed, salt) = (rng.bytes(s.round_seed), rng.bytes(s.salt));
        let rounds = committed(s, &secret_key(s, private_seed).ok()?, &master_seed, &salt).ok()?;
        Some(Forger { sizes: *s, salt, message: message.to_vec(), rounds })
    }

    /// The signature with these bytes for c or h; None for an honest one. Challenges are drawn from
    /// what is claimed, and every round is answered as they ask.
    pub fn claim(&self, c: Option<&[u8]>, h: Option<&[u8]>) -> Option<Vec<u8>> {
        let s = &self.sizes;
        let c = c.map_or_else(|| rounds_commitment(s, &self.rounds), <[u8]>::to_vec);
        answered(s, &self.rounds, &self.salt, &self.message, &c, h).ok()
    }

    /// Commits to each round as if its challenges were known: under 1 any c0(i) does, and under 0
    /// and a guessed β the syndrome that the reply will open to under someone else's key.
    pub fn guess(&mut self, rng: &mut Rng, key: &[u8]) -> Option<()> {
        let s = &self.sizes;
        let (public_seed, packed) = key.split_at(s.key_seed);
        let (matrix, target) = (draw_matrix(s, public_seed).ok()?, unpack(VALUE, packed, s.rows()).ok()?);
        for (at, round) in self.rounds.iter_mut().enumerate() {
            round.commitment_0 = rng.bytes(s.digest);
            if rng.below(2) == 0 {
                let beta = 1 + rng.below(126) as u8;
                let y = response(beta, &round.mask.values, &round.mask.exponents);
                let moved = syndrome(s.k, &matrix, &scaled(&round.transformation, &y));
                let opened = less_times(beta, &moved, &target);
                let string = strings::commitment_0(&opened, &round.transformation, &self.salt, at + 1);
                round.commitment_0 = s.digest_of(&string);
            }
        }
        Some(())
    }
}

#[cfg(test)]
mod tests {
    use super::*;
    use crate::sizes::{CATEGORY_1, TINY};

    fn key_of(s: &Sizes, private_seed: &[u8]) -> Vec<u8> {
        let mut key = vec![0; s.key()];
        assert_eq!(make_key(s, private_seed, &mut key), 0);
        key
    }

    #[test]
    fn a_claim_is_refused_by_its_own_comparison() {
        let (s, mut rng) = (CATEGORY_1, Rng::new(20));
        let private_seed = rng.bytes(s.key_seed);
        let key = key_of(&s, &private_seed);
        let forger = Forger::new(&s, &mut rng, &private_seed, b"message").unwrap();
        let any = rng.bytes(s.digest);
        let answer = |c, h| verify(&s, &key, b"message", &forger.claim(c, h).unwrap());
        assert_eq!(answer(None, None), 0);
        assert_eq!(answer(None, Some(&any)), 4);
        assert_eq!(answer(Some(&any), None), 4);
    }

    /// Few rounds are guessed right now and then, so that a signature without the key is accepted:
    /// the forger does what it says.
    #[test]
    fn guesses_that_are_right_are_accepted() {
        let (s, mut rng) = (Sizes { t: 2, w: 1, ..TINY }, Rng::new(21));
        let mut accepted = 0;
        for _ in 0..60_000 {
            let (own, other) = (rng.bytes(s.key_seed), rng.bytes(s.key_seed));
            let mut key = vec![0; s.key()];
            let Some(mut forger) = Forger::new(&s, &mut rng, &own, b"") else { continue };
            if make_key(&s, &other, &mut key) != 0 || forger.guess(&mut rng, &key).is_none() {
                continue;
            }
            accepted += u32::from(forger.claim(None, None).is_some_and(|made| verify(&s, &key, b"", &made) == 0));
        }
        assert!(accepted > 0);
    }
}
