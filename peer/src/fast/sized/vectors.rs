//! Vectors as arrays of bytes, with sums in 32 bits.

use super::S;

pub const N: usize = S.n;
pub const K: usize = S.k;
pub const ROWS: usize = S.rows();
pub const MATRIX: usize = S.matrix();

pub type Vector = [u8; N];
pub type Syndrome = [u8; ROWS];

pub fn powers(exponents: &Vector) -> Vector {
    exponents.map(|a| 1 << a)
}

/// 2^σ times v, place by place.
pub fn scaled(transformation: &Vector, values: &Vector) -> Vector {
    let mut out = [0; N];
    for i in 0..N {
        out[i] = ((u32::from(values[i]) << transformation[i]) % 127) as u8;
    }
    out
}

/// Key exponents minus mask exponents.
pub fn transformation(key: &Vector, mask: &Vector) -> Vector {
    let mut out = [0; N];
    for i in 0..N {
        let difference = key[i] + 7 - mask[i];
        out[i] = if difference >= 7 { difference - 7 } else { difference };
    }
    out
}

/// u' + β · 2^e'.
pub fn response(first_challenge: u8, mask_values: &Vector, mask_exponents: &Vector) -> Vector {
    let mut out = [0; N];
    for i in 0..N {
        let sum = u32::from(mask_values[i]) + (u32::from(first_challenge) << mask_exponents[i]);
        out[i] = (sum % 127) as u8;
    }
    out
}

/// x times H transposed.
pub fn syndrome(matrix: &[u8; MATRIX], x: &Vector) -> Syndrome {
    let mut out = [0; ROWS];
    for (i, row) in matrix.chunks_exact(K).enumerate() {
        let dot: u32 = row.iter().zip(&x[..K]).map(|(&v, &a)| u32::from(v) * u32::from(a)).sum();
        out[i] = ((dot + u32::from(x[K + i])) % 127) as u8;
    }
    out
}

/// a − β · s.
pub fn less_times(first_challenge: u8, a: &Syndrome, s: &Syndrome) -> Syndrome {
    let mut out = [0; ROWS];
    for i in 0..ROWS {
        out[i] = ((u32::from(a[i]) + 127 * 127 - u32::from(first_challenge) * u32::from(s[i])) % 127) as u8;
    }
    out
}
