//! Keccak-f[1600] with each round written out, and a sponge that buffers a block.

use crate::keccak::ROUND_CONSTANTS;

/// Lane (x, y) stands at [y][x].
type Lanes = [[u64; 5]; 5];

#[inline(always)]
fn chi(b0: u64, b1: u64, b2: u64, b3: u64, b4: u64) -> [u64; 5] {
    [b0 ^ (!b1 & b2), b1 ^ (!b2 & b3), b2 ^ (!b3 & b4), b3 ^ (!b4 & b0), b4 ^ (!b0 & b1)]
}

#[inline(always)]
fn round(a: &Lanes, constant: u64) -> Lanes {
    let column = |x: usize| a[0][x] ^ a[1][x] ^ a[2][x] ^ a[3][x] ^ a[4][x];
    let (c0, c1, c2, c3, c4) = (column(0), column(1), column(2), column(3), column(4));
    let d0 = c4 ^ c1.rotate_left(1);
    let d1 = c0 ^ c2.rotate_left(1);
    let d2 = c1 ^ c3.rotate_left(1);
    let d3 = c2 ^ c4.rotate_left(1);
    let d4 = c3 ^ c0.rotate_left(1);
    let [b0, b1, b2, b3, b4] = [
        (a[0][0] ^ d0).rotate_left(0),
        (a[1][1] ^ d1).rotate_left(44),
        (a[2][2] ^ d2).rotate_left(43),
        (a[3][3] ^ d3).rotate_left(21),
        (a[4][4] ^ d4).rotate_left(14),
    ];
    let mut row0 = chi(b0, b1, b2, b3, b4);
    let [b0, b1, b2, b3, b4] = [
        (a[0][3] ^ d3).rotate_left(28),
        (a[1][4] ^ d4).rotate_left(20),
        (a[2][0] ^ d0).rotate_left(3),
        (a[3][1] ^ d1).rotate_left(45),
        (a[4][2] ^ d2).rotate_left(61),
    ];
    let row1 = chi(b0, b1, b2, b3, b4);
    let [b0, b1, b2, b3, b4] = [
        (a[0][1] ^ d1).rotate_left(1),
        (a[1][2] ^ d2).rotate_left(6),
        (a[2][3] ^ d3).rotate_left(25),
        (a[3][4] ^ d4).rotate_left(8),
        (a[4][0] ^ d0).rotate_left(18),
    ];
    let row2 = chi(b0, b1, b2, b3, b4);
    let [b0, b1, b2, b3, b4] = [
        (a[0][4] ^ d4).rotate_left(27),
        (a[1][0] ^ d0).rotate_left(36),
        (a[2][1] ^ d1).rotate_left(10),
        (a[3][2] ^ d2).rotate_left(15),
        (a[4][3] ^ d3).rotate_left(56),
    ];
    let row3 = chi(b0, b1, b2, b3, b4);
    let [b0, b1, b2, b3, b4] = [
        (a[0][2] ^ d2).rotate_left(62),
        (a[1][3] ^ d3).rotate_left(55),
        (a[2][4] ^ d4).rotate_left(39),
        (a[3][0] ^ d0).rotate_left(41),
        (a[4][1] ^ d1).rotate_left(2),
    ];
    let row4 = chi(b0, b1, b2, b3, b4);
    row0[0] ^= constant;
    [row0, row1, row2, row3, row4]
}

pub fn permute(lanes: &mut Lanes) {
    for pair in ROUND_CONSTANTS.chunks_exact(2) {
        *lanes = round(&round(lanes, pair[0]), pair[1]);
    }
}

/// Takes a string in parts, then gives bytes. `RATE` is that of SHAKE128 or SHAKE256.
pub struct Sponge<const RATE: usize> {
    lanes: Lanes,
    block: [u8; RATE],
    len: usize,
}

impl<const RATE: usize> Sponge<RATE> {
    pub fn new() -> Self {
        Sponge { lanes: [[0; 5]; 5], block: [0; RATE], len: 0 }
    }

    fn absorb_block(lanes: &mut Lanes, block: &[u8]) {
        for (lane, word) in lanes.as_flattened_mut().iter_mut().zip(block.chunks_exact(8)) {
            *lane ^= u64::from_le_bytes(word.try_into().unwrap());
        }
        permute(lanes);
    }

    pub fn absorb(&mut self, mut part: &[u8]) {
        if self.len > 0 {
            let (head, rest) = part.split_at(part.len().min(RATE - self.len));
            self.block[self.len..self.len + head.len()].copy_from_slice(head);
            self.len += head.len();
            part = rest;
            if self.len == RATE {
                Self::absorb_block(&mut self.lanes, &self.block);
                self.len = 0;
            }
        }
        let mut blocks = part.chunks_exact(RATE);
        for block in &mut blocks {
            Self::absorb_block(&mut self.lanes, block);
        }
        let rest = blocks.remainder();
        self.block[self.len..self.len + rest.len()].copy_from_slice(rest);
        self.len += rest.len();
    }

    /// Pads, and writes as many bytes as `out` has.
    pub fn finish(mut self, out: &mut [u8]) {
        self.block[self.len..].fill(0);
        self.block[self.len] = 0x1F;
        self.block[RATE - 1] |= 0x80;
        Self::absorb_block(&mut self.lanes, &self.block);
        let count = out.chunks(RATE).len();
        for (i, chunk) in out.chunks_mut(RATE).enumerate() {
            for (word, lane) in chunk.chunks_mut(8).zip(self.lanes.as_flattened()) {
                word.copy_from_slice(&lane.to_le_bytes()[..word.len()]);
            }
            if i + 1 < count {
                permute(&mut self.lanes);
            }
        }
    }
}

impl<const RATE: usize> Default for Sponge<RATE> {
    fn default() -> Self {
        Self::new()
    }
}

/// The hash of several parts, one after the other.
pub fn shake<const RATE: usize>(parts: &[&[u8]], out: &mut [u8]) {
    let mut sponge = Sponge::<RATE>::new();
    parts.iter().for_each(|part| sponge.absorb(part));
    sponge.finish(out);
}

#[cfg(test)]
mod tests {
    use super::*;
    use crate::keccak::{SHAKE128_RATE, SHAKE256_RATE};
    use crate::rng::Rng;

    #[test]
    fn fast_shake_is_shake() {
        let mut rng = Rng::new(5);
        for len in 0..700 {
            let input = rng.bytes(len);
            let (a, rest) = input.split_at(rng.below(len + 1));
            let (b, c) = rest.split_at(rng.below(rest.len() + 1));
            let mut out = vec![0; rng.below(520)];
            shake::<SHAKE128_RATE>(&[a, b, c], &mut out);
            assert_eq!(out, crate::keccak::shake(SHAKE128_RATE, &input, out.len()));
            shake::<SHAKE256_RATE>(&[a, b, c], &mut out);
            assert_eq!(out, crate::keccak::shake(SHAKE256_RATE, &input, out.len()));
        }
    }
}
