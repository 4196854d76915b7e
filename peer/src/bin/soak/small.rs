//! Inputs for SHAKE, packing and the samples.

use crate::turn::{damaged, resized, size, Turn};
use peer::archive::c::{self, Pair};
use peer::archive::CATEGORIES;
use peer::bits::{lay, packed_size, Kind, EXPONENT, VALUE};
use peer::draws::{shuffle_limit, Draw, EXPONENTS, FIRST_CHALLENGES, VALUES};
use peer::entries;
use peer::keccak::{SHAKE128_RATE, SHAKE256_RATE};
use peer::rng::Rng;
use peer::sizes::Sizes;

/// SHAKE has no answer; a turn wants one.
unsafe extern "C" fn shake128_in_c(input: *const u8, input_len: usize, out: *mut u8, out_len: usize) -> u8 {
    c::gridprofile_shake128(input, input_len, out, out_len);
    0
}

unsafe extern "C" fn shake256_in_c(input: *const u8, input_len: usize, out: *mut u8, out_len: usize) -> u8 {
    c::gridprofile_shake256(input, input_len, out, out_len);
    0
}

/// Often at or beside the end of a block.
fn hashed_len(rng: &mut Rng, rate: usize, most: usize) -> usize {
    match rng.below(3) {
        0 => (rate * rng.below(4) + rng.below(5)).saturating_sub(2),
        _ => rng.below(most),
    }
}

fn shake(t: &mut Turn, rate: usize, proved: Pair, plain: fn(&[u8], &mut [u8])) -> u8 {
    let long = t.one_in(4_000);
    let len = if long { 65_530 + t.rng.below(12) } else { hashed_len(&mut t.rng, rate, 400) };
    let room = hashed_len(&mut t.rng, rate, 400);
    let mut input = t.rng.bytes(len);
    if t.one_in(4) {
        input.fill([0, 0xFF][t.rng.below(2)]);
    }
    let plain = |input: &[u8], out: &mut [u8]| {
        plain(input, out);
        0
    };
    t.pair(proved, plain, &input, room)
}

pub fn shake128(t: &mut Turn) -> u8 {
    shake(t, SHAKE128_RATE, shake128_in_c, entries::shake128)
}

pub fn shake256(t: &mut Turn) -> u8 {
    shake(t, SHAKE256_RATE, shake256_in_c, entries::shake256)
}

/// Any number of them, often those of a category; now and then one or all out of range.
fn numbers(t: &mut Turn, kind: Kind) -> Vec<u8> {
    let s = t.pick(&CATEGORIES).sizes;
    let count = match t.rng.below(4) {
        0 => *t.pick(&[s.n, s.rows(), s.t, 8, 16]),
        1 => t.rng.below(300),
        _ => t.rng.below(40),
    };
    let mut numbers = t.rng.numbers(count, usize::from(kind.limit));
    match t.rng.below(8) {
        0 if count > 0 => numbers[t.rng.below(count)] = kind.limit + t.rng.below(256 - usize::from(kind.limit)) as u8,
        1 => t.rng.fill(&mut numbers),
        _ => (),
    }
    numbers
}

fn pack(t: &mut Turn, kind: Kind, proved: Pair) -> u8 {
    let plain = if kind.width == VALUE.width { entries::pack_values } else { entries::pack_exponents };
    let numbers = numbers(t, kind);
    let room = size(&mut t.rng, packed_size(kind.width, numbers.len()), 13);
    t.pair(proved, plain, &numbers, room)
}

pub fn pack_values(t: &mut Turn) -> u8 {
    pack(t, VALUE, c::gridprofile_pack_values)
}

pub fn pack_exponents(t: &mut Turn) -> u8 {
    pack(t, EXPONENT, c::gridprofile_pack_exponents)
}

/// Packed numbers, some with a bad field, a spare bit or another size.
fn unpack(t: &mut Turn, kind: Kind, proved: Pair) -> u8 {
    let plain = if kind.width == VALUE.width { entries::unpack_values } else { entries::unpack_exponents };
    let numbers: Vec<u32> = numbers(t, kind).iter().map(|&x| u32::from(x % (1 << kind.width))).collect();
    let mut packed = lay(&numbers, kind.width);
    match t.rng.below(8) {
        0 => packed = damaged(&mut t.rng, &packed),
        1 => packed = resized(&mut t.rng, &packed, 8),
        2 => *packed.last_mut().unwrap_or(&mut 0) |= 1 << t.rng.below(8),
        _ => (),
    }
    let room = size(&mut t.rng, numbers.len(), 14);
    t.pair(proved, plain, &packed, room)
}

pub fn unpack_values(t: &mut Turn) -> u8 {
    unpack(t, VALUE, c::gridprofile_unpack_values)
}

pub fn unpack_exponents(t: &mut Turn) -> u8 {
    unpack(t, EXPONENT, c::gridprofile_unpack_exponents)
}

/// A block with about as many dropped fields as can be spared, at random places or in front.
fn tight_block(rng: &mut Rng, draw: Draw, size: usize, count: usize) -> Vec<u8> {
    let (width, limit) = (draw.kind.width, usize::from(draw.kind.limit));
    let fields = 8 * size / width;
    let mut drops = (fields - count + rng.below(5)).saturating_sub(2);
    let in_front = rng.below(2) == 0;
    let mut field = |at: usize| {
        let drop = drops > 0 && (in_front || rng.below(fields - at) < drops);
        drops -= usize::from(drop);
        (if drop { limit + rng.below((1 << width) - limit) } else { rng.below(limit) }) as u32
    };
    let fields: Vec<u32> = (0..fields).map(&mut field).collect();
    lay(&fields, width)
}

/// A block for the shuffle with about as many dropped fields as can be spared.
fn tight_shuffle(rng: &mut Rng, size: usize, count: usize) -> Vec<u8> {
    let fields = size / 2;
    let (mut drops, mut j) = (fields - (count - 1) + rng.below(5) - 2, count - 1);
    let mut field = |at: usize| {
        let limit = if j == 0 { 65_536 } else { shuffle_limit(j) as usize };
        let drop = limit < 65_536 && rng.below(fields - at) < 2 * drops;
        drops -= usize::from(drop && drops > 0);
        if drop {
            return [limit, 65_535][rng.below(2)] as u32;
        }
        j = j.saturating_sub(1);
        [0, limit - 1, rng.below(limit), rng.below(limit)][rng.below(4)] as u32
    };
    let fields: Vec<u32> = (0..fields).map(&mut field).collect();
    lay(&fields, 16)
}

/// One of the entries that draw from a block: numbers of a kind, or where it has none the shuffle.
struct Sample {
    proved: Pair,
    plain: fn(&Sizes, &[u8], &mut [u8]) -> u8,
    block: fn(&Sizes) -> usize,
    count: fn(&Sizes) -> usize,
    draw: Option<Draw>,
}

fn sample(t: &mut Turn, entry: &Sample) -> u8 {
    let (size, count) = ((entry.block)(t.taken), (entry.count)(t.taken));
    let mut block = t.rng.bytes(size);
    match t.rng.below(8) {
        0 => block[..t.rng.below(size)].fill(0xFF),
        1 => block.fill([0, 0xFF][t.rng.below(2)]),
        2..=4 => {
            block = match entry.draw {
                Some(draw) => tight_block(&mut t.rng, draw, size, count),
                None => tight_shuffle(&mut t.rng, size, count),
            }
        }
        5 => block.resize(t.size_of(entry.block, 0), 0),
        _ => (),
    }
    let (s, room) = (t.sizes(), t.size_of(entry.count, 15));
    t.pair(entry.proved, |block, out| (entry.plain)(s, block, out), &block, room)
}

pub fn sample_matrix(t: &mut Turn) -> u8 {
    let (proved, plain) = (t.world.category.functions.sample_matrix, entries::sample_matrix);
    sample(t, &Sample { proved, plain, block: |s| s.matrix_block, count: Sizes::matrix, draw: Some(VALUES) })
}

pub fn sample_exponents(t: &mut Turn) -> u8 {
    let (proved, plain) = (t.world.category.functions.sample_exponents, entries::sample_exponents);
    sample(t, &Sample { proved, plain, block: |s| s.exponents_block, count: |s| s.n, draw: Some(EXPONENTS) })
}

pub fn sample_mask_values(t: &mut Turn) -> u8 {
    let (proved, plain) = (t.world.category.functions.sample_mask_values, entries::sample_mask_values);
    sample(t, &Sample { proved, plain, block: |s| s.mask_values_block, count: |s| s.n, draw: Some(VALUES) })
}

pub fn sample_first_challenges(t: &mut Turn) -> u8 {
    let (proved, plain) = (t.world.category.functions.sample_first_challenges, entries::sample_first_challenges);
    let draw = Some(FIRST_CHALLENGES);
    sample(t, &Sample { proved, plain, block: |s| s.first_challenges_block, count: |s| s.t, draw })
}

pub fn sample_second_challenge(t: &mut Turn) -> u8 {
    let (proved, plain) = (t.world.category.functions.sample_second_challenge, entries::sample_second_challenge);
    sample(t, &Sample { proved, plain, block: |s| s.second_challenge_block, count: |s| s.t, draw: None })
}
