//! The fast program at one category. Each category has this as a module of its own, under its sizes
//! `S`, so that every length is a constant of the code.

mod sampling;
mod scheme;
mod vectors;

use super::S;
use crate::fast::Scheme;

pub const SCHEME: Scheme = Scheme {
    sample_matrix: sampling::sample_matrix,
    sample_exponents: sampling::sample_exponents,
    sample_mask_values: sampling::sample_mask_values,
    sample_first_challenges: sampling::sample_first_challenges,
    sample_second_challenge: sampling::sample_second_challenge,
    make_key: scheme::make_key,
    sign: scheme::sign,
    verify: scheme::verify,
};
