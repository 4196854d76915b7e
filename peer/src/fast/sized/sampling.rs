//! The draws as entries: a block of its one size, an output of its one size.

use super::S;
use crate::fast::draws::{draw, shuffle};
use crate::refusal::{BAD_SIZE, SHORT_DRAW};

/// Draws into scratch first, since a refusal leaves `out` as it was.
fn entry<const COUNT: usize>(draw: impl Fn(&[u8], &mut [u8]) -> bool, size: usize, block: &[u8], out: &mut [u8]) -> u8 {
    if block.len() != size || out.len() != COUNT {
        return BAD_SIZE;
    }
    let mut scratch = [0; COUNT];
    if !draw(block, &mut scratch) {
        return SHORT_DRAW;
    }
    out.copy_from_slice(&scratch);
    0
}

pub fn sample_matrix(block: &[u8], out: &mut [u8]) -> u8 {
    entry::<{ S.matrix() }>(|b, o| draw::<7>(b, 127, 0, o), S.matrix_block, block, out)
}

pub fn sample_exponents(block: &[u8], out: &mut [u8]) -> u8 {
    entry::<{ S.n }>(|b, o| draw::<3>(b, 7, 0, o), S.exponents_block, block, out)
}

pub fn sample_mask_values(block: &[u8], out: &mut [u8]) -> u8 {
    entry::<{ S.n }>(|b, o| draw::<7>(b, 127, 0, o), S.mask_values_block, block, out)
}

pub fn sample_first_challenges(block: &[u8], out: &mut [u8]) -> u8 {
    entry::<{ S.t }>(|b, o| draw::<7>(b, 126, 1, o), S.first_challenges_block, block, out)
}

pub fn sample_second_challenge(block: &[u8], out: &mut [u8]) -> u8 {
    entry::<{ S.t }>(|b, o| shuffle(b, S.w, o), S.second_challenge_block, block, out)
}

#[cfg(test)]
mod tests {
    use super::*;
    use crate::entries;
    use crate::harness::Function;
    use crate::rng::Rng;
    use crate::sizes::Sizes;

    #[test]
    fn fast_draws_are_the_draws() {
        type Plain = fn(&Sizes, &[u8], &mut [u8]) -> u8;
        let jobs: [(Function, Plain, usize, usize); 5] = [
            (sample_matrix, entries::sample_matrix, S.matrix_block, S.matrix()),
            (sample_exponents, entries::sample_exponents, S.exponents_block, S.n),
            (sample_mask_values, entries::sample_mask_values, S.mask_values_block, S.n),
            (sample_first_challenges, entries::sample_first_challenges, S.first_challenges_block, S.t),
            (sample_second_challenge, entries::sample_second_challenge, S.second_challenge_block, S.t),
        ];
        let mut rng = Rng::new(4);
        for (fast, plain, block_len, count) in jobs {
            for turn in 0..300 {
                let mut block = rng.bytes(block_len);
                let ones = rng.below(block_len / 2);
                block[..if turn % 2 == 0 { 0 } else { ones }].fill(0xFF);
                let (mut a, mut b) = (vec![0x5A; count], vec![0x5A; count]);
                assert_eq!(fast(&block, &mut a), plain(&S, &block, &mut b));
                assert_eq!(a, b);
            }
        }
    }
}
