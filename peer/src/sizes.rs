//! The sizes of a category: every length of the scheme follows from these numbers.

use crate::bits::{packed_size, EXPONENT, VALUE};
use crate::keccak::{shake, SHAKE128_RATE, SHAKE256_RATE};
use crate::toy::toy;

/// Lengths are in bytes.
#[derive(Clone, Copy, Debug)]
pub struct Sizes {
    /// Places of a vector.
    pub n: usize,
    /// Columns of V, which has `n - k` rows.
    pub k: usize,
    /// Rounds.
    pub t: usize,
    /// Rounds with second challenge 1.
    pub w: usize,
    pub digest: usize,
    pub salt: usize,
    /// Private, secret and public seed.
    pub key_seed: usize,
    /// Master seed and round seeds.
    pub round_seed: usize,
    pub matrix_block: usize,
    pub exponents_block: usize,
    pub mask_values_block: usize,
    pub first_challenges_block: usize,
    pub second_challenge_block: usize,
    /// SHAKE, or a stand-in for it: rate, string, and how many bytes to give.
    pub hash: fn(usize, &[u8], usize) -> Vec<u8>,
    pub rate: usize,
    /// The longest message.
    pub message: usize,
}

pub const CATEGORY_1: Sizes = Sizes {
    n: 127,
    k: 76,
    t: 163,
    w: 85,
    digest: 32,
    salt: 32,
    key_seed: 32,
    round_seed: 16,
    matrix_block: 3500,
    exponents_block: 96,
    mask_values_block: 140,
    first_challenges_block: 196,
    second_challenge_block: 400,
    hash: shake,
    rate: SHAKE128_RATE,
    message: 65536,
};

pub const CATEGORY_3: Sizes = Sizes {
    n: 187,
    k: 111,
    t: 245,
    w: 127,
    digest: 48,
    salt: 48,
    key_seed: 48,
    round_seed: 24,
    matrix_block: 7616,
    exponents_block: 144,
    mask_values_block: 210,
    first_challenges_block: 280,
    second_challenge_block: 600,
    hash: shake,
    rate: SHAKE256_RATE,
    message: 65536,
};

pub const CATEGORY_5: Sizes = Sizes {
    n: 251,
    k: 150,
    t: 327,
    w: 169,
    digest: 64,
    salt: 64,
    key_seed: 64,
    round_seed: 32,
    matrix_block: 13664,
    exponents_block: 192,
    mask_values_block: 280,
    first_challenges_block: 350,
    second_challenge_block: 800,
    hash: shake,
    rate: SHAKE256_RATE,
    message: 65536,
};

pub const CATEGORIES: [Sizes; 3] = [CATEGORY_1, CATEGORY_3, CATEGORY_5];

/// Small enough to compute in a proof, with blocks so tight that every draw is often short.
pub const TINY: Sizes = Sizes {
    n: 4,
    k: 2,
    t: 5,
    w: 3,
    digest: 3,
    salt: 3,
    key_seed: 3,
    round_seed: 2,
    matrix_block: 4,
    exponents_block: 2,
    mask_values_block: 4,
    first_challenges_block: 5,
    second_challenge_block: 10,
    hash: toy,
    rate: SHAKE128_RATE,
    message: 65536,
};

/// Others of the kind: whole groups and one round more than there are ones, with SHAKE256's rate; a matrix with
/// one column.
pub const TINIES: [Sizes; 3] = [
    TINY,
    Sizes {
        n: 8,
        k: 3,
        t: 3,
        w: 2,
        matrix_block: 14,
        exponents_block: 4,
        mask_values_block: 8,
        rate: SHAKE256_RATE,
        ..TINY
    },
    Sizes { n: 3, k: 1, t: 4, w: 1, matrix_block: 2, mask_values_block: 3, first_challenges_block: 4, ..TINY },
];

impl Sizes {
    /// Places of a syndrome: rows of V.
    pub const fn rows(&self) -> usize {
        self.n - self.k
    }

    /// Values of V.
    pub const fn matrix(&self) -> usize {
        self.rows() * self.k
    }

    /// A packed vector of n values.
    pub const fn packed_values(&self) -> usize {
        packed_size(VALUE.width, self.n)
    }

    /// A packed vector of n exponents.
    pub const fn packed_exponents(&self) -> usize {
        packed_size(EXPONENT.width, self.n)
    }

    /// Packed first challenges.
    pub const fn packed_challenges(&self) -> usize {
        packed_size(VALUE.width, self.t)
    }

    /// A packed syndrome.
    pub const fn packed_syndrome(&self) -> usize {
        packed_size(VALUE.width, self.rows())
    }

    /// Public seed and syndrome.
    pub const fn key(&self) -> usize {
        self.key_seed + self.packed_syndrome()
    }

    /// A reply to second challenge 0: response and transformation; to 1: the round's seed.
    pub const fn reply(&self, challenge: u8) -> usize {
        if challenge == 1 {
            self.round_seed
        } else {
            self.packed_values() + self.packed_exponents()
        }
    }

    /// A round's part of a signature: the reply and the commitment that it does not open.
    pub const fn part(&self, challenge: u8) -> usize {
        self.reply(challenge) + self.digest
    }

    pub const fn signature(&self) -> usize {
        self.salt + 2 * self.digest + self.w * self.part(1) + (self.t - self.w) * self.part(0)
    }
}

#[cfg(test)]
mod tests {
    use super::*;

    #[test]
    fn keys_and_signatures_have_the_sizes_of_the_paper() {
        let sizes = CATEGORIES.map(|s| (s.key(), s.signature()));
        assert_eq!(sizes, [(77, 19_152), (115, 42_682), (153, 76_298)]);
    }

    #[test]
    fn replies_and_parts() {
        assert_eq!(CATEGORIES.map(|s| (s.reply(0), s.reply(1))), [(160, 16), (235, 24), (315, 32)]);
        assert_eq!(CATEGORIES.map(|s| (s.part(0), s.part(1))), [(192, 48), (283, 72), (379, 96)]);
    }

    #[test]
    fn packed_vectors() {
        let packed = |s: Sizes| [s.packed_values(), s.packed_exponents(), s.packed_syndrome(), s.packed_challenges()];
        assert_eq!(CATEGORIES.map(packed), [[112, 48, 45, 143], [164, 71, 67, 215], [220, 95, 89, 287]]);
    }
}
