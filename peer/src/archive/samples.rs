//! The five draws as entries, each in the archive and in the clear program.

use super::Category;
use crate::entries;
use crate::harness::Comparison;
use crate::sizes::Sizes;

#[derive(Clone, Copy)]
pub struct Sample {
    pub name: &'static str,
    pub proved: fn(&Category, &[u8], &mut [u8]) -> u8,
    pub plain: fn(&Sizes, &[u8], &mut [u8]) -> u8,
    /// The bytes of the block and of the output.
    pub lengths: fn(&Sizes) -> (usize, usize),
}

pub const MATRIX: Sample = Sample {
    name: "sample_matrix",
    proved: Category::sample_matrix,
    plain: entries::sample_matrix,
    lengths: |s| (s.matrix_block, s.matrix()),
};

pub const EXPONENTS: Sample = Sample {
    name: "sample_exponents",
    proved: Category::sample_exponents,
    plain: entries::sample_exponents,
    lengths: |s| (s.exponents_block, s.n),
};

pub const MASK_VALUES: Sample = Sample {
    name: "sample_mask_values",
    proved: Category::sample_mask_values,
    plain: entries::sample_mask_values,
    lengths: |s| (s.mask_values_block, s.n),
};

pub const FIRST_CHALLENGES: Sample = Sample {
    name: "sample_first_challenges",
    proved: Category::sample_first_challenges,
    plain: entries::sample_first_challenges,
    lengths: |s| (s.first_challenges_block, s.t),
};

pub const SECOND_CHALLENGE: Sample = Sample {
    name: "sample_second_challenge",
    proved: Category::sample_second_challenge,
    plain: entries::sample_second_challenge,
    lengths: |s| (s.second_challenge_block, s.t),
};

pub const SAMPLES: [Sample; 5] = [MATRIX, EXPONENTS, MASK_VALUES, FIRST_CHALLENGES, SECOND_CHALLENGE];

impl Sample {
    /// The comparison at a category, which is called so.
    pub fn comparison(self, category: Category, name: String) -> Comparison {
        let proved = move |block: &[u8], out: &mut [u8]| (self.proved)(&category, block, out);
        let plain = move |block: &[u8], out: &mut [u8]| (self.plain)(&category.sizes, block, out);
        Comparison::new(name, proved, plain)
    }
}
