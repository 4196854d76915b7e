//! The same work done the usual fast way: accumulators for bits, whole words, no allocation. The
//! benchmark measures the proved library against these, and tests judge by them where the plain
//! modules would take too long; other tests hold them to the plain modules.

#![allow(clippy::duplicate_mod)] // each category has the files under `sized` as its own

mod category_1;
mod category_3;
mod category_5;
mod draws;
pub mod keccak;
pub mod packing;

use crate::harness::Function;

/// Private seed, master seed, salt, message, signature.
pub type Sign = fn(&[u8], &[u8], &[u8], &[u8], &mut [u8]) -> u8;

/// Key, message, signature.
pub type Verify = fn(&[u8], &[u8], &[u8]) -> u8;

/// The fast program at one category.
#[derive(Clone, Copy)]
pub struct Scheme {
    pub sample_matrix: Function,
    pub sample_exponents: Function,
    pub sample_mask_values: Function,
    pub sample_first_challenges: Function,
    pub sample_second_challenge: Function,
    /// Private seed, key.
    pub make_key: Function,
    pub sign: Sign,
    pub verify: Verify,
}

pub const CATEGORY_1: Scheme = category_1::sized::SCHEME;
pub const CATEGORY_3: Scheme = category_3::sized::SCHEME;
pub const CATEGORY_5: Scheme = category_5::sized::SCHEME;
