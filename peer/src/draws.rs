//! Draws from a block of bytes: fields are read in order and the acceptable ones kept until there
//! are enough. A block that yields too few is short.

use crate::bits::{field_count, fields, Kind};
use crate::refusal::{demand, Refusal, SHORT_DRAW};

/// A draw of fields: those of `kind` (below its limit) are kept, each plus `addend`.
#[derive(Clone, Copy)]
pub struct Draw {
    pub kind: Kind,
    pub addend: u8,
}

/// Values modulo 127: the matrix V and the mask values. The field 127 is dropped.
pub const VALUES: Draw = Draw { kind: crate::bits::VALUE, addend: 0 };

/// Exponents modulo 7. The field 7 is dropped.
pub const EXPONENTS: Draw = Draw { kind: crate::bits::EXPONENT, addend: 0 };

/// First challenges, 1 to 126. The fields 126 and 127 are dropped.
pub const FIRST_CHALLENGES: Draw = Draw { kind: Kind { width: 7, limit: 126 }, addend: 1 };

/// The first `count` numbers that the block yields.
pub fn sample(draw: Draw, block: &[u8], count: usize) -> Result<Vec<u8>, Refusal> {
    let Kind { width, limit } = draw.kind;
    let kept = fields(block, width).filter(|&x| x < u32::from(limit));
    let numbers: Vec<u8> = kept.take(count).map(|x| x as u8 + draw.addend).collect();
    demand(numbers.len() == count, SHORT_DRAW)?;
    Ok(numbers)
}

/// The least 16-bit field that is dropped while position `j` is exchanged: below it every remainder
/// modulo `j + 1` is equally frequent.
pub fn shuffle_limit(j: usize) -> u32 {
    let choices = j as u32 + 1;
    65536 / choices * choices
}

/// `ones` ones and then zeros, `count` positions in all, shuffled from the last position down.
pub fn shuffle(block: &[u8], count: usize, ones: usize) -> Result<Vec<u8>, Refusal> {
    let mut positions: Vec<u8> = (0..count).map(|at| u8::from(at < ones)).collect();
    let mut next = 0;
    for j in (1..count).rev() {
        loop {
            demand(next < field_count(block, 16), SHORT_DRAW)?;
            let r = crate::bits::field(block, 16 * next, 16);
            next += 1;
            if r < shuffle_limit(j) {
                positions.swap(j, r as usize % (j + 1));
                break;
            }
        }
    }
    Ok(positions)
}

#[cfg(test)]
mod tests {
    use super::*;

    #[test]
    fn two_values_from_three_bytes() {
        assert_eq!(sample(VALUES, &[0x7F, 0x01, 0x02], 2), Ok(vec![2, 8]));
    }

    #[test]
    fn a_mask_block_of_ones_is_short() {
        assert_eq!(sample(VALUES, &[0xFF; 140], 127), Err(SHORT_DRAW));
    }

    #[test]
    fn the_last_field_decides() {
        // three 7-bit fields fit into three bytes; the three bits that are left are not looked at
        let block = |last: u32| crate::bits::lay(&[127, 5, last], 7);
        assert_eq!(sample(VALUES, &block(6), 2), Ok(vec![5, 6]));
        assert_eq!(sample(VALUES, &block(127), 2), Err(SHORT_DRAW));
    }

    #[test]
    fn a_first_challenge_is_the_field_plus_one() {
        assert_eq!(sample(FIRST_CHALLENGES, &[125], 1), Ok(vec![126]));
        assert_eq!(sample(FIRST_CHALLENGES, &[126], 1), Err(SHORT_DRAW));
        assert_eq!(sample(FIRST_CHALLENGES, &[0], 1), Ok(vec![1]));
    }

    #[test]
    fn three_positions_one_one() {
        assert_eq!(shuffle(&[5, 0, 2, 0], 3, 1), Ok(vec![0, 1, 0]));
    }

    #[test]
    fn the_greatest_field_is_dropped_at_position_2() {
        assert_eq!(shuffle_limit(2), 65535);
        assert_eq!(shuffle(&[0xFF, 0xFF, 5, 0, 2, 0], 3, 1), Ok(vec![0, 1, 0]));
        assert_eq!(shuffle(&[0xFF, 0xFF, 5, 0], 3, 1), Err(SHORT_DRAW));
    }

    #[test]
    fn a_shuffle_keeps_its_ones() {
        let mut rng = crate::rng::Rng::new(2);
        for _ in 0..1000 {
            let positions = shuffle(&rng.bytes(400), 163, 85).unwrap();
            assert_eq!(positions.iter().filter(|&&x| x == 1).count(), 85);
        }
    }
}
