//! Packing and unpacking of values and exponents, at many counts.

use peer::bits::{lay, packed_size, Kind, EXPONENT, VALUE};
use peer::harness::Comparison;
use peer::rng::Rng;
use peer::{archive, entries};

/// Whole groups of eight, their neighbours, and the counts of the scheme.
const COUNTS: [usize; 16] = [1, 2, 3, 7, 8, 9, 15, 16, 17, 24, 51, 64, 127, 128, 163, 256];

fn good(rng: &mut Rng, kind: Kind, count: usize) -> Vec<u8> {
    rng.numbers(count, usize::from(kind.limit))
}

fn packed(kind: Kind, numbers: &[u8]) -> Vec<u8> {
    let wide: Vec<u32> = numbers.iter().map(|&x| u32::from(x)).collect();
    lay(&wide, kind.width)
}

/// The lengths around the right one, and every length up to `count + 2` for small counts.
fn lengths(right: usize, count: usize) -> Vec<usize> {
    let around = right.saturating_sub(3)..=right + 3;
    let small = 0..=if count <= 40 { count + 2 } else { 0 };
    around.chain(small).chain([count]).collect()
}

fn pack_sizes(c: &mut Comparison, kind: Kind, rng: &mut Rng) {
    for count in 0..=260 {
        let right = packed_size(kind.width, count);
        let numbers = good(rng, kind, count);
        for len in lengths(right, count) {
            c.demand(&numbers, len, u8::from(len != right));
        }
        for same in [0, kind.limit - 1, kind.limit, 0xFF] {
            let wanted = if count > 0 && same >= kind.limit { 3 } else { 0 };
            c.demand(&vec![same; count], right, wanted);
            c.demand(&vec![same; count], right + 1, 1);
        }
    }
}

/// Every number out of range alone at every place; two of them; one of them with a wrong size.
fn pack_bad_numbers(c: &mut Comparison, kind: Kind, rng: &mut Rng) {
    for count in COUNTS {
        let right = packed_size(kind.width, count);
        let numbers = good(rng, kind, count);
        let every = [9, 127].contains(&count);
        for at in 0..count {
            for bad in (kind.limit..=0xFF).filter(|x| every || [kind.limit, kind.limit + 1, 0xFF].contains(x)) {
                let mut faulty = numbers.clone();
                faulty[at] = bad;
                c.demand(&faulty, right, 3);
            }
            let mut faulty = numbers.clone();
            faulty[at] = kind.limit;
            for len in [0, right - 1, right + 1] {
                c.demand(&faulty, len, 1);
            }
            faulty[rng.below(count)] = 0xFF;
            c.demand(&faulty, right, 3);
        }
    }
}

fn compare_pack(mut c: Comparison, kind: Kind) {
    let mut rng = Rng::new(0x7061_636B);
    pack_sizes(&mut c, kind, &mut rng);
    pack_bad_numbers(&mut c, kind, &mut rng);
    for turn in 0..c.missing().max(60_000) {
        let count = if turn % 2 == 0 { 127 } else { rng.below(300) };
        let mut numbers = good(&mut rng, kind, count);
        if turn % 10 == 9 {
            rng.fill(&mut numbers);
        }
        c.agree(&numbers, packed_size(kind.width, count));
    }
    c.finish(&[0, 1, 3]);
}

fn unpack_sizes(c: &mut Comparison, kind: Kind, rng: &mut Rng) {
    for count in 0..=260 {
        let right = packed_size(kind.width, count);
        let bytes = packed(kind, &good(rng, kind, count));
        for len in lengths(right, count) {
            let mut other = bytes.clone();
            other.resize(len, 0);
            c.demand(&other, count, u8::from(len != right));
            c.demand(&vec![0xFF; len], count, if len != right { 1 } else { 3 * u8::from(count > 0) });
            c.demand(&vec![0; len], count, u8::from(len != right));
        }
        for out_len in count.saturating_sub(9)..count + 10 {
            c.agree(&bytes, out_len);
        }
    }
}

/// The places where one fault can stand: each field out of range, each spare bit.
fn faults(kind: Kind, count: usize) -> Vec<Vec<usize>> {
    let field = |i: usize| (i * kind.width..(i + 1) * kind.width).collect();
    let spare = (kind.width * count..8 * packed_size(kind.width, count)).map(|k| vec![k]);
    (0..count).map(field).chain(spare).collect()
}

fn with_bits(bytes: &[u8], bits: &[usize]) -> Vec<u8> {
    let mut out = bytes.to_vec();
    bits.iter().for_each(|k| out[k / 8] |= 1 << (k % 8));
    out
}

/// Every fault alone, with a wrong size, and every pair of faults.
fn unpack_faults(c: &mut Comparison, kind: Kind, rng: &mut Rng) {
    for count in COUNTS {
        let bytes = packed(kind, &good(rng, kind, count));
        let all = faults(kind, count);
        for (at, fault) in all.iter().enumerate() {
            let mut faulty = with_bits(&bytes, fault);
            c.demand(&faulty, count, 3);
            for other in &all[at + 1..] {
                c.demand(&with_bits(&faulty, other), count, 3);
            }
            faulty.push(0);
            c.demand(&faulty, count, 1);
            faulty.truncate(bytes.len() - 1);
            c.demand(&faulty, count, 1);
        }
        for k in 0..8 * bytes.len() {
            let mut flipped = bytes.clone();
            flipped[k / 8] ^= 1 << (k % 8);
            c.agree(&flipped, count);
        }
    }
}

fn compare_unpack(mut c: Comparison, kind: Kind) {
    let mut rng = Rng::new(0x756E_7061);
    unpack_sizes(&mut c, kind, &mut rng);
    unpack_faults(&mut c, kind, &mut rng);
    for turn in 0..c.missing().max(60_000) {
        let count = if turn % 2 == 0 { 127 } else { rng.below(300) };
        let mut bytes = packed(kind, &good(&mut rng, kind, count));
        if turn % 5 == 4 {
            rng.fill(&mut bytes);
        }
        c.agree(&bytes, count);
    }
    c.finish(&[0, 1, 3]);
}

#[test]
fn pack_values() {
    compare_pack(Comparison::new("pack_values", archive::pack_values, entries::pack_values), VALUE);
}

#[test]
fn pack_exponents() {
    compare_pack(Comparison::new("pack_exponents", archive::pack_exponents, entries::pack_exponents), EXPONENT);
}

#[test]
fn unpack_values() {
    compare_unpack(Comparison::new("unpack_values", archive::unpack_values, entries::unpack_values), VALUE);
}

#[test]
fn unpack_exponents() {
    compare_unpack(Comparison::new("unpack_exponents", archive::unpack_exponents, entries::unpack_exponents), EXPONENT);
}
