//! Packing and unpacking by a 64-bit accumulator.

use crate::refusal::{BAD_FIELD, BAD_SIZE};

/// Packs numbers below `LIMIT` into fields of `WIDTH` bits.
fn pack<const WIDTH: u32, const LIMIT: u8>(numbers: &[u8], packed: &mut [u8]) -> u8 {
    if packed.len() != (WIDTH as usize * numbers.len()).div_ceil(8) {
        return BAD_SIZE;
    }
    if numbers.iter().any(|&x| x >= LIMIT) {
        return BAD_FIELD;
    }
    lay::<WIDTH>(numbers, packed);
    0
}

/// Packs numbers that are in range into a buffer of their size.
pub fn lay<const WIDTH: u32>(numbers: &[u8], packed: &mut [u8]) {
    let (mut acc, mut bits, mut at) = (0u64, 0, 0);
    for &x in numbers {
        acc |= u64::from(x) << bits;
        bits += WIDTH;
        if bits >= 32 {
            packed[at..at + 4].copy_from_slice(&(acc as u32).to_le_bytes());
            at += 4;
            acc >>= 32;
            bits -= 32;
        }
    }
    for byte in &mut packed[at..] {
        *byte = acc as u8;
        acc >>= 8;
    }
}

/// Unpacks as many fields as `numbers` has; whether they and the spare bits are good.
pub fn read<const WIDTH: u32, const LIMIT: u8>(packed: &[u8], numbers: &mut [u8]) -> bool {
    let mask = (1 << WIDTH) - 1;
    let (mut acc, mut bits, mut at, mut good) = (0u64, 0, 0, true);
    for x in numbers {
        if bits < WIDTH {
            if let Some(word) = packed.get(at..at + 4) {
                acc |= u64::from(u32::from_le_bytes(word.try_into().unwrap())) << bits;
                at += 4;
                bits += 32;
            } else {
                while bits < WIDTH {
                    acc |= u64::from(packed[at]) << bits;
                    at += 1;
                    bits += 8;
                }
            }
        }
        *x = (acc & mask) as u8;
        good &= *x < LIMIT;
        acc >>= WIDTH;
        bits -= WIDTH;
    }
    good && acc == 0 && packed[at..].iter().all(|&byte| byte == 0)
}

/// The most numbers that are unpacked without a second pass.
const SCRATCH: usize = 256;

/// Unpacks into scratch first, since a refusal leaves `numbers` as they were.
fn unpack<const WIDTH: u32, const LIMIT: u8>(packed: &[u8], numbers: &mut [u8]) -> u8 {
    if packed.len() != (WIDTH as usize * numbers.len()).div_ceil(8) {
        return BAD_SIZE;
    }
    let mut small = [0; SCRATCH];
    let mut large = Vec::new();
    let scratch = match small.get_mut(..numbers.len()) {
        Some(part) => part,
        None => {
            large.resize(numbers.len(), 0);
            &mut large[..]
        }
    };
    if !read::<WIDTH, LIMIT>(packed, scratch) {
        return BAD_FIELD;
    }
    numbers.copy_from_slice(scratch);
    0
}

pub fn pack_values(values: &[u8], packed: &mut [u8]) -> u8 {
    pack::<7, 127>(values, packed)
}

pub fn unpack_values(packed: &[u8], values: &mut [u8]) -> u8 {
    unpack::<7, 127>(packed, values)
}

pub fn pack_exponents(exponents: &[u8], packed: &mut [u8]) -> u8 {
    pack::<3, 7>(exponents, packed)
}

pub fn unpack_exponents(packed: &[u8], exponents: &mut [u8]) -> u8 {
    unpack::<3, 7>(packed, exponents)
}

#[cfg(test)]
mod tests {
    use super::*;
    use crate::entries;
    use crate::rng::Rng;

    type Entry = fn(&[u8], &mut [u8]) -> u8;

    fn same(fast: Entry, plain: Entry, input: &[u8], out_len: usize) {
        let (mut a, mut b) = (vec![0x5A; out_len], vec![0x5A; out_len]);
        assert_eq!(fast(input, &mut a), plain(input, &mut b));
        assert_eq!(a, b);
    }

    #[test]
    fn fast_packing_is_packing() {
        let mut rng = Rng::new(3);
        for count in 0..300 {
            for limit in [127, 128] {
                let values = rng.numbers(count, limit);
                let packed = crate::bits::lay(&values.iter().map(|&x| u32::from(x)).collect::<Vec<_>>(), 7);
                same(pack_values, entries::pack_values, &values, packed.len());
                same(unpack_values, entries::unpack_values, &packed, count);
                same(unpack_values, entries::unpack_values, &rng.bytes(packed.len()), count);
            }
            for limit in [7, 8] {
                let exponents = rng.numbers(count, limit);
                let packed = crate::bits::lay(&exponents.iter().map(|&x| u32::from(x)).collect::<Vec<_>>(), 3);
                same(pack_exponents, entries::pack_exponents, &exponents, packed.len());
                same(unpack_exponents, entries::unpack_exponents, &packed, count);
                same(unpack_exponents, entries::unpack_exponents, &rng.bytes(packed.len()), count);
            }
        }
    }
}
