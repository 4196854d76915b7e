//! The library's inner sums, where zero is 0 or 127, and a search for sums that come out as 127.
//!
//! Which of the two comes out is the library's choice. It folds, and no fold makes a positive number
//! 0: so it is 127 wherever some term of the sum is not 0, in whatever order the terms are folded.
//! These sums are folded too. They are called loose; `vectors` has those with one zero.

use crate::refusal::{demand, Refusal};
use crate::scheme::{challenges, committed, secret_key, sign, Mask, Round, SecretKey};
use crate::sizes::Sizes;
use crate::vectors::{self, power, powers, scaled};

/// The other spelling of zero.
pub const OTHER_ZERO: u8 = 127;

/// The lowest seven bits and the rest. 128 is 1 modulo 127, so that the remainder stays.
fn fold(number: u16) -> u16 {
    (number & 0x7F) + (number >> 7)
}

/// At most 127: three folds are enough for every number of 16 bits.
fn reduce(sum: u16) -> u8 {
    fold(fold(fold(sum))) as u8
}

fn product(a: u8, b: u8) -> u16 {
    u16::from(a) * u16::from(b)
}

/// A row of V times the first places of a vector. The first half goes beside the second, and each
/// two products are folded at once, as they fit 16 bits; a last one without a partner is added as it
/// is.
fn row_sum(row: &[u8], head: &[u8]) -> u16 {
    let (half, at) = (row.len() / 2, |i: usize| product(row[i], head[i]));
    let pairs: u16 = (0..half).map(|i| fold(at(i) + at(half + i))).sum();
    pairs + (2 * half..row.len()).map(at).sum::<u16>()
}

/// x times H transposed, loose; V is row by row, and `k` values are a row.
pub fn syndrome(k: usize, matrix: &[u8], x: &[u8]) -> Vec<u8> {
    let (head, tail) = x.split_at(k);
    let row = |(i, &own): (usize, &u8)| reduce(row_sum(&matrix[i * k..(i + 1) * k], head) + u16::from(own));
    tail.iter().enumerate().map(row).collect()
}

/// u' + β · 2^e', loose. The library looks the product up, so that it is below 127 before the sum.
pub fn response(first_challenge: u8, mask_values: &[u8], mask_exponents: &[u8]) -> Vec<u8> {
    let moved = |e: u8| product(first_challenge, power(e)) % 127;
    let place = |(&u, &e): (&u8, &u8)| fold(u16::from(u) + moved(e)) as u8;
    mask_values.iter().zip(mask_exponents).map(place).collect()
}

/// x − β · s, loose, and x may be.
pub fn difference(first_challenge: u8, x: &[u8], s: &[u8]) -> Vec<u8> {
    let place = |(&x, &s): (&u8, &u8)| reduce(u16::from(x) + product(first_challenge, 127 - s));
    x.iter().zip(s).map(place).collect()
}

/// The first place that is 127.
pub fn other_zero(sums: &[u8]) -> Option<usize> {
    sums.iter().position(|&sum| sum == OTHER_ZERO)
}

/// A private seed: a counter, low byte first, then zeros.
pub fn private_seed(s: &Sizes, counter: u64) -> Vec<u8> {
    let mut seed = vec![0; s.key_seed];
    seed[..8].copy_from_slice(&counter.to_le_bytes());
    seed
}

/// A row of a key whose sum is 127.
pub struct FoundRow {
    /// That of the private seed.
    pub counter: u64,
    /// From 0.
    pub row: usize,
    /// The row of V.
    pub values: Vec<u8>,
    /// What the row meets: the first k powers of the key exponents, and the row's own.
    pub x: Vec<u8>,
}

fn row_of(s: &Sizes, counter: u64) -> Option<FoundRow> {
    let secret = secret_key(s, &private_seed(s, counter)).ok()?;
    let x = powers(&secret.exponents);
    let row = other_zero(&syndrome(s.k, &secret.matrix, &x))?;
    let values = secret.matrix[row * s.k..(row + 1) * s.k].to_vec();
    Some(FoundRow { counter, row, values, x: [&x[..s.k], &[x[s.k + row]]].concat() })
}

/// The first private seed, counted upward, whose key has such a row, with the first that it has.
pub fn first_row(s: &Sizes) -> FoundRow {
    (0..).find_map(|counter| row_of(s, counter)).expect("a key with a zero")
}

/// A place of a round whose sum is 127.
pub struct FoundPlace {
    /// From 1.
    pub round: usize,
    /// From 0.
    pub place: usize,
    /// What goes into the sum.
    pub inputs: [u8; 3],
}

/// A signing, and what goes into its inner sums.
pub struct Signing {
    sizes: Sizes,
    secret: SecretKey,
    rounds: Vec<Round>,
    first: Vec<u8>,
    second: Vec<u8>,
    pub signature: Vec<u8>,
}

impl Signing {
    /// Of private seed, master seed, salt and message.
    pub fn new(s: &Sizes, parts: &[Vec<u8>; 4]) -> Result<Signing, Refusal> {
        let [private, master, salt, message] = parts;
        let mut signature = vec![0; s.signature()];
        let answer = sign(s, private, master, salt, message, &mut signature);
        demand(answer == 0, answer)?;
        let secret = secret_key(s, private)?;
        let rounds = committed(s, &secret, master, salt)?;
        let (first, second) = challenges(s, message, &signature)?;
        Ok(Signing { sizes: *s, secret, rounds, first, second, signature })
    }

    fn syndrome(&self, round: &Round, values: &[u8]) -> Vec<u8> {
        syndrome(self.sizes.k, &self.secret.matrix, &scaled(&round.transformation, values))
    }

    /// s̃ of every round, as the signer sums it.
    pub fn syndromes(&self) -> Vec<Vec<u8>> {
        self.rounds.iter().map(|round| self.syndrome(round, &round.mask.values)).collect()
    }

    /// y of every round.
    pub fn responses(&self) -> Vec<Vec<u8>> {
        let respond = |(round, &beta): (&Round, &u8)| response(beta, &round.mask.values, &round.mask.exponents);
        self.rounds.iter().zip(&self.first).map(respond).collect()
    }

    /// The rounds, from 0, with second challenge 0.
    fn opened(&self) -> impl Iterator<Item = usize> + '_ {
        (0..self.second.len()).filter(|&at| self.second[at] == 0)
    }

    /// The verifier's syndrome of a round, from which β · s is taken. y is as it was sent: not loose.
    fn moved(&self, at: usize) -> Vec<u8> {
        let Mask { values, exponents } = &self.rounds[at].mask;
        self.syndrome(&self.rounds[at], &vectors::response(self.first[at], values, exponents))
    }

    /// s of the key, not loose.
    fn key_syndrome(&self) -> Vec<u8> {
        vectors::syndrome(self.sizes.k, &self.secret.matrix, &powers(&self.secret.exponents))
    }

    /// s̃ of every round with second challenge 0, as the verifier sums it.
    pub fn differences(&self) -> Vec<Vec<u8>> {
        let s = self.key_syndrome();
        self.opened().map(|at| difference(self.first[at], &self.moved(at), &s)).collect()
    }

    /// The first response that is 127: u', e' and β.
    pub fn first_response(&self) -> Option<FoundPlace> {
        self.responses().iter().enumerate().find_map(|(at, y)| {
            let (place, mask) = (other_zero(y)?, &self.rounds[at].mask);
            let inputs = [mask.values[place], mask.exponents[place], self.first[at]];
            Some(FoundPlace { round: at + 1, place, inputs })
        })
    }

    /// The verifier's first difference that is 127: its syndrome's place, β and the key's place.
    pub fn first_difference(&self) -> Option<FoundPlace> {
        let s = self.key_syndrome();
        self.opened().find_map(|at| {
            let (x, beta) = (self.moved(at), self.first[at]);
            let place = other_zero(&difference(beta, &x, &s))?;
            Some(FoundPlace { round: at + 1, place, inputs: [x[place], beta, s[place]] })
        })
    }
}

#[cfg(test)]
mod tests {
    use super::*;
    use crate::rng::Rng;

    /// What a loose vector stands for.
    fn residues(loose: &[u8]) -> Vec<u8> {
        assert!(loose.iter().all(|&sum| sum <= 127));
        loose.iter().map(|&sum| sum % 127).collect()
    }

    #[test]
    fn loose_sums_stand_for_the_sums() {
        let mut rng = Rng::new(30);
        for turn in 0..3000 {
            let (k, rows, beta) = (turn % 200, 5, 1 + rng.below(126) as u8);
            let [matrix, x] = [k * rows, k + rows].map(|count| rng.numbers(count, 127));
            let loose = syndrome(k, &matrix, &x);
            assert_eq!(residues(&loose), vectors::syndrome(k, &matrix, &x));
            let s = rng.numbers(rows, 127);
            assert_eq!(residues(&difference(beta, &loose, &s)), vectors::less_times(beta, &loose, &s));
            let e = rng.numbers(rows, 7);
            assert_eq!(residues(&response(beta, &s, &e)), vectors::response(beta, &s, &e));
        }
    }

    /// A row with a last value that has no partner, the largest sum, and sums of nothing but zeros.
    #[test]
    fn ends_of_the_sums() {
        assert_eq!(syndrome(3, &[1, 2, 3], &[10, 20, 25, 2]), [127]);
        assert_eq!(syndrome(255, &[126; 255], &[126; 256]), [127]);
        assert_eq!((syndrome(2, &[0, 0], &[5, 5, 0]), syndrome(2, &[0, 1], &[5, 0, 0])), (vec![0], vec![0]));
        assert_eq!((response(1, &[126], &[0]), response(64, &[125], &[1])), (vec![127], vec![126]));
        assert_eq!((difference(1, &[0], &[0]), difference(126, &[127], &[126])), (vec![127], vec![126]));
    }
}
