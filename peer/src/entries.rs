//! The entries as the library offers them: bytes in, bytes out, a number as the answer.

use crate::bits::{pack, packed_size, unpack, Kind, EXPONENT, VALUE};
use crate::draws::{sample, shuffle, Draw, EXPONENTS, FIRST_CHALLENGES, VALUES};
use crate::keccak::{shake, SHAKE128_RATE, SHAKE256_RATE};
use crate::line::{image, meaning, read_line as read, write_line as written, IMAGE, LONGEST};
use crate::refusal::{answer, answer_length, demand, BAD_SIZE};
use crate::sizes::Sizes;
use crate::table::{read_table as table_of, Table, TABLE};

fn pack_entry(kind: Kind, numbers: &[u8], packed: &mut [u8]) -> u8 {
    let sized = demand(packed.len() == packed_size(kind.width, numbers.len()), BAD_SIZE);
    answer(sized.and_then(|()| pack(kind, numbers)), packed)
}

pub fn pack_values(values: &[u8], packed: &mut [u8]) -> u8 {
    pack_entry(VALUE, values, packed)
}

pub fn unpack_values(packed: &[u8], values: &mut [u8]) -> u8 {
    answer(unpack(VALUE, packed, values.len()), values)
}

pub fn pack_exponents(exponents: &[u8], packed: &mut [u8]) -> u8 {
    pack_entry(EXPONENT, exponents, packed)
}

pub fn unpack_exponents(packed: &[u8], exponents: &mut [u8]) -> u8 {
    answer(unpack(EXPONENT, packed, exponents.len()), exponents)
}

fn sample_entry(draw: Draw, block_size: usize, count: usize, block: &[u8], out: &mut [u8]) -> u8 {
    let sized = demand(block.len() == block_size && out.len() == count, BAD_SIZE);
    answer(sized.and_then(|()| sample(draw, block, count)), out)
}

pub fn sample_matrix(s: &Sizes, block: &[u8], out: &mut [u8]) -> u8 {
    sample_entry(VALUES, s.matrix_block, s.matrix(), block, out)
}

pub fn sample_exponents(s: &Sizes, block: &[u8], out: &mut [u8]) -> u8 {
    sample_entry(EXPONENTS, s.exponents_block, s.n, block, out)
}

pub fn sample_mask_values(s: &Sizes, block: &[u8], out: &mut [u8]) -> u8 {
    sample_entry(VALUES, s.mask_values_block, s.n, block, out)
}

pub fn sample_first_challenges(s: &Sizes, block: &[u8], out: &mut [u8]) -> u8 {
    sample_entry(FIRST_CHALLENGES, s.first_challenges_block, s.t, block, out)
}

pub fn sample_second_challenge(s: &Sizes, block: &[u8], out: &mut [u8]) -> u8 {
    let sized = demand(block.len() == s.second_challenge_block && out.len() == s.t, BAD_SIZE);
    answer(sized.and_then(|()| shuffle(block, s.t, s.w)), out)
}

/// Never refuses.
pub fn shake128(input: &[u8], out: &mut [u8]) {
    out.copy_from_slice(&shake(SHAKE128_RATE, input, out.len()));
}

/// Never refuses.
pub fn shake256(input: &[u8], out: &mut [u8]) {
    out.copy_from_slice(&shake(SHAKE256_RATE, input, out.len()));
}

/// Reads a line under a table's image, into a profile's.
pub fn read_line(table: &[u8], line: &[u8], profile: &mut [u8]) -> u8 {
    let make = || {
        let table = Table::lent(table)?;
        demand(profile.len() == IMAGE, BAD_SIZE)?;
        read(&table, line).map(|read| image(&read).to_vec())
    };
    answer(make(), profile)
}

/// Writes the line of an image's profile under a table's image; the length comes back, or as it was.
pub fn write_line(table: &[u8], profile: &[u8], out: &mut [u8], length: usize) -> (u8, usize) {
    let make = || {
        let table = Table::lent(table)?;
        let image: &[u8; IMAGE] = profile.try_into().map_err(|_| BAD_SIZE)?;
        demand(out.len() == LONGEST, BAD_SIZE)?;
        written(&table, &meaning(image))
    };
    answer_length(make(), out, length)
}

/// Reads a table's file into its image: 1, 13.
pub fn read_table(file: &[u8], table: &mut [u8]) -> u8 {
    let sized = demand(table.len() == TABLE, BAD_SIZE);
    answer(sized.and_then(|()| table_of(file)).map(|read| read.image().to_vec()), table)
}
