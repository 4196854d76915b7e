//! Vectors of values modulo 127 and of exponents modulo 7, a byte for each place.

const P: u32 = 127;
const Z: u32 = 7;

/// The value that an exponent stands for: a power of 2, one of 1, 2, 4, 8, 16, 32, 64.
pub fn power(exponent: u8) -> u8 {
    1 << exponent
}

fn modulo(number: u32) -> u8 {
    (number % P) as u8
}

/// The powers of 2 that a vector of exponents stands for.
pub fn powers(exponents: &[u8]) -> Vec<u8> {
    exponents.iter().map(|&a| power(a)).collect()
}

/// 2^σ times v, place by place.
pub fn scaled(transformation: &[u8], values: &[u8]) -> Vec<u8> {
    let place = |(&a, &x): (&u8, &u8)| modulo(u32::from(power(a)) * u32::from(x));
    transformation.iter().zip(values).map(place).collect()
}

/// The key exponents minus the mask exponents modulo 7.
pub fn transformation(key: &[u8], mask: &[u8]) -> Vec<u8> {
    let place = |(&a, &b): (&u8, &u8)| ((u32::from(a) + Z - u32::from(b)) % Z) as u8;
    key.iter().zip(mask).map(place).collect()
}

/// u' + β · 2^e', place by place.
pub fn response(first_challenge: u8, mask_values: &[u8], mask_exponents: &[u8]) -> Vec<u8> {
    let place = |(&u, &e): (&u8, &u8)| modulo(u32::from(u) + u32::from(first_challenge) * u32::from(power(e)));
    mask_values.iter().zip(mask_exponents).map(place).collect()
}

/// x times H transposed, where H is V (`k` columns, row by row) followed by the identity.
pub fn syndrome(k: usize, matrix: &[u8], x: &[u8]) -> Vec<u8> {
    let (head, tail) = x.split_at(k);
    let dot = |row: &[u8]| -> u32 { row.iter().zip(head).map(|(&v, &a)| u32::from(v) * u32::from(a)).sum() };
    let row = |(i, &own): (usize, &u8)| modulo(dot(&matrix[i * k..(i + 1) * k]) + u32::from(own));
    tail.iter().enumerate().map(row).collect()
}

/// a − β · s, place by place.
pub fn less_times(first_challenge: u8, a: &[u8], s: &[u8]) -> Vec<u8> {
    let place = |(&a, &s): (&u8, &u8)| modulo(u32::from(a) + P * P - u32::from(first_challenge) * u32::from(s));
    a.iter().zip(s).map(place).collect()
}

#[cfg(test)]
mod tests {
    use super::*;

    #[test]
    fn one_place() {
        let (key, mask_exponents, mask_values, first_challenge) = ([2], [5], [100], 3);
        let sigma = transformation(&key, &mask_exponents);
        assert_eq!(sigma, [4]);
        let s = syndrome(0, &[], &powers(&key));
        assert_eq!(s, [4]);
        let y = response(first_challenge, &mask_values, &mask_exponents);
        assert_eq!(y, [69]);
        let commitment = syndrome(0, &[], &scaled(&sigma, &mask_values));
        assert_eq!(commitment, [76]);
        assert_eq!(less_times(first_challenge, &syndrome(0, &[], &scaled(&sigma, &y)), &s), commitment);
    }

    #[test]
    fn a_syndrome_of_two_rows() {
        // H = (1 2 1 0 / 3 4 0 1)
        assert_eq!(syndrome(2, &[1, 2, 3, 4], &[10, 20, 100, 126]), [(10 + 40 + 100) % 127, (30 + 80 + 126) % 127]);
    }
}
