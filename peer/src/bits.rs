//! Fields of a fixed width in a byte string, laid from the lowest bit of the first byte upward.

use crate::refusal::{demand, Refusal, BAD_FIELD, BAD_SIZE};

/// A kind of field: its width in bits, and the bound below which every packed number stays.
#[derive(Clone, Copy)]
pub struct Kind {
    pub width: usize,
    pub limit: u8,
}

/// Values modulo 127.
pub const VALUE: Kind = Kind { width: 7, limit: 127 };

/// Exponents modulo 7.
pub const EXPONENT: Kind = Kind { width: 3, limit: 7 };

/// Bit `k`, counted from the lowest bit of the first byte.
pub fn bit(bytes: &[u8], k: usize) -> u32 {
    u32::from(bytes[k / 8] >> (k % 8) & 1)
}

/// The field of `width` bits that begins at bit `at`, its lowest bit first.
pub fn field(bytes: &[u8], at: usize, width: usize) -> u32 {
    (0..width).map(|i| bit(bytes, at + i) << i).sum()
}

/// How many whole fields the bytes hold.
pub fn field_count(bytes: &[u8], width: usize) -> usize {
    8 * bytes.len() / width
}

/// Every whole field of the bytes, in order.
pub fn fields(bytes: &[u8], width: usize) -> impl Iterator<Item = u32> + '_ {
    (0..field_count(bytes, width)).map(move |i| field(bytes, i * width, width))
}

/// The bytes that `count` fields take.
pub const fn packed_size(width: usize, count: usize) -> usize {
    (width * count).div_ceil(8)
}

/// Lays the fields down bit by bit; the bits that are left stay 0. Any number that fits is taken.
pub fn lay(fields: &[u32], width: usize) -> Vec<u8> {
    let mut bytes = vec![0; packed_size(width, fields.len())];
    for (i, &number) in fields.iter().enumerate() {
        for j in 0..width {
            let k = i * width + j;
            bytes[k / 8] |= ((number >> j & 1) as u8) << (k % 8);
        }
    }
    bytes
}

/// Packs numbers of one kind: refusal 3 where one of them is out of range.
pub fn pack(kind: Kind, numbers: &[u8]) -> Result<Vec<u8>, Refusal> {
    demand(numbers.iter().all(|&x| x < kind.limit), BAD_FIELD)?;
    let wide: Vec<u32> = numbers.iter().map(|&x| u32::from(x)).collect();
    Ok(lay(&wide, kind.width))
}

/// Unpacks `count` numbers of one kind: refusal 1 where the size is not theirs, 3 where a field is
/// out of range or a spare bit is 1.
pub fn unpack(kind: Kind, packed: &[u8], count: usize) -> Result<Vec<u8>, Refusal> {
    demand(packed.len() == packed_size(kind.width, count), BAD_SIZE)?;
    let numbers: Vec<u8> = (0..count).map(|i| field(packed, i * kind.width, kind.width) as u8).collect();
    demand(numbers.iter().all(|&x| x < kind.limit), BAD_FIELD)?;
    let mut spare = kind.width * count..8 * packed.len();
    demand(spare.all(|k| bit(packed, k) == 0), BAD_FIELD)?;
    Ok(numbers)
}

#[cfg(test)]
mod tests {
    use super::*;
    use crate::rng::Rng;

    #[test]
    fn three_values_pack_to_three_bytes() {
        assert_eq!(pack(VALUE, &[1, 2, 3]), Ok(vec![0x01, 0xC1, 0x00]));
        assert_eq!(unpack(VALUE, &[0x01, 0xC1, 0x00], 3), Ok(vec![1, 2, 3]));
    }

    #[test]
    fn three_exponents_pack_to_two_bytes() {
        assert_eq!(pack(EXPONENT, &[6, 5, 1]), Ok(vec![0x6E, 0x00]));
        assert_eq!(unpack(EXPONENT, &[0x6E, 0x00], 3), Ok(vec![6, 5, 1]));
    }

    #[test]
    fn a_field_of_127_and_a_spare_bit_are_bad() {
        assert_eq!(unpack(VALUE, &[0x7F], 1), Err(BAD_FIELD));
        assert_eq!(unpack(VALUE, &[0x80], 1), Err(BAD_FIELD));
        assert_eq!(unpack(EXPONENT, &[0x07], 1), Err(BAD_FIELD));
        assert_eq!(unpack(EXPONENT, &[0x08], 1), Err(BAD_FIELD));
    }

    #[test]
    fn numbers_out_of_range_do_not_pack() {
        assert_eq!(pack(VALUE, &[127]), Err(BAD_FIELD));
        assert_eq!(pack(EXPONENT, &[7]), Err(BAD_FIELD));
    }

    #[test]
    fn sizes_are_those_of_the_paper() {
        let of = |kind: Kind, count| packed_size(kind.width, count);
        assert_eq!((of(VALUE, 127), of(VALUE, 51), of(EXPONENT, 127), of(VALUE, 163)), (112, 45, 48, 143));
    }

    #[test]
    fn unpacking_undoes_packing_at_every_count() {
        let mut rng = Rng::new(1);
        for kind in [VALUE, EXPONENT] {
            for count in 0..300 {
                let numbers = rng.numbers(count, usize::from(kind.limit));
                let packed = pack(kind, &numbers).unwrap();
                assert_eq!(unpack(kind, &packed, count), Ok(numbers));
            }
        }
    }

    #[test]
    fn a_wrong_size_comes_before_a_bad_field() {
        assert_eq!(unpack(VALUE, &[0xFF, 0xFF], 1), Err(BAD_SIZE));
    }
}
