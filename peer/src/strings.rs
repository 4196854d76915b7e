//! Every string that is hashed: a tag byte, then the parts. A round enters as two bytes, low first.

use crate::bits::{pack, EXPONENT, VALUE};
use crate::sizes::Sizes;

fn joined(tag: u8, parts: &[&[u8]]) -> Vec<u8> {
    let mut string = vec![tag];
    parts.iter().for_each(|part| string.extend_from_slice(part));
    string
}

fn round_bytes(round: usize) -> [u8; 2] {
    (round as u16).to_le_bytes()
}

/// Vectors enter packed. Those made here are in range.
pub fn packed_values(values: &[u8]) -> Vec<u8> {
    pack(VALUE, values).expect("values below 127")
}

pub fn packed_exponents(exponents: &[u8]) -> Vec<u8> {
    pack(EXPONENT, exponents).expect("exponents below 7")
}

/// Commits to a round's syndrome and transformation.
pub fn commitment_0(syndrome: &[u8], transformation: &[u8], salt: &[u8], round: usize) -> Vec<u8> {
    joined(0, &[&packed_values(syndrome), &packed_exponents(transformation), salt, &round_bytes(round)])
}

/// Commits to a round's mask.
pub fn commitment_1(mask_values: &[u8], mask_exponents: &[u8], salt: &[u8], round: usize) -> Vec<u8> {
    joined(1, &[&packed_values(mask_values), &packed_exponents(mask_exponents), salt, &round_bytes(round)])
}

pub fn response(response: &[u8]) -> Vec<u8> {
    joined(2, &[&packed_values(response)])
}

pub fn all_commitments_0(digests: &[u8]) -> Vec<u8> {
    joined(3, &[digests])
}

pub fn all_commitments_1(digests: &[u8]) -> Vec<u8> {
    joined(4, &[digests])
}

pub fn commitments(c0: &[u8], c1: &[u8]) -> Vec<u8> {
    joined(5, &[c0, c1])
}

pub fn all_responses(digests: &[u8]) -> Vec<u8> {
    joined(6, &[digests])
}

pub fn first_challenges(c: &[u8], salt: &[u8], message: &[u8]) -> Vec<u8> {
    joined(7, &[c, salt, message])
}

pub fn second_challenge(c: &[u8], first_challenges: &[u8], h: &[u8], salt: &[u8], message: &[u8]) -> Vec<u8> {
    joined(8, &[c, &packed_values(first_challenges), h, salt, message])
}

pub fn round_seeds(master_seed: &[u8], salt: &[u8]) -> Vec<u8> {
    joined(9, &[master_seed, salt])
}

pub fn key_exponents(secret_seed: &[u8]) -> Vec<u8> {
    joined(10, &[secret_seed])
}

pub fn mask_exponents(seed: &[u8], salt: &[u8], round: usize) -> Vec<u8> {
    joined(10, &[seed, salt, &round_bytes(round)])
}

pub fn mask_values(seed: &[u8], salt: &[u8], round: usize) -> Vec<u8> {
    joined(11, &[seed, salt, &round_bytes(round)])
}

pub fn key_seeds(private_seed: &[u8]) -> Vec<u8> {
    joined(12, &[private_seed])
}

pub fn matrix(public_seed: &[u8]) -> Vec<u8> {
    joined(13, &[public_seed])
}

impl Sizes {
    pub fn bytes_from(&self, string: &[u8], len: usize) -> Vec<u8> {
        (self.hash)(self.rate, string, len)
    }

    pub fn digest_of(&self, string: &[u8]) -> Vec<u8> {
        self.bytes_from(string, self.digest)
    }
}
