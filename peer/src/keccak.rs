//! SHAKE128 and SHAKE256 after FIPS 202, in plain loops.

/// Bytes of a block: 200 less twice the capacity's 16 or 32 bytes.
pub const SHAKE128_RATE: usize = 168;
pub const SHAKE256_RATE: usize = 136;

/// Lane (x, y) stands at [x][y].
type State = [[u64; 5]; 5];

/// One bit of the round constants: the output of the LFSR after `t` steps (algorithm 5).
const fn rc_bit(t: usize) -> u64 {
    let mut register: u16 = 1;
    let mut step = 0;
    while step < t % 255 {
        register <<= 1;
        if register & 0x100 != 0 {
            register ^= 0x171;
        }
        step += 1;
    }
    (register & 1) as u64
}

/// Algorithm 6: bit 2^j - 1 of round constant i is the LFSR's output 7 i + j.
const fn round_constants() -> [u64; 24] {
    let mut constants = [0; 24];
    let mut i = 0;
    while i < 24 {
        let mut j = 0;
        while j <= 6 {
            constants[i] |= rc_bit(7 * i + j) << ((1 << j) - 1);
            j += 1;
        }
        i += 1;
    }
    constants
}

/// Algorithm 2: a walk over the lanes, the offsets being the triangular numbers modulo 64.
const fn rotation_offsets() -> [[u32; 5]; 5] {
    let mut offsets = [[0; 5]; 5];
    let (mut x, mut y) = (1, 0);
    let mut t = 0;
    while t < 24 {
        offsets[x][y] = ((t + 1) * (t + 2) / 2 % 64) as u32;
        (x, y) = (y, (2 * x + 3 * y) % 5);
        t += 1;
    }
    offsets
}

pub const ROUND_CONSTANTS: [u64; 24] = round_constants();
const ROTATION_OFFSETS: [[u32; 5]; 5] = rotation_offsets();

fn theta(a: &State) -> State {
    let column = |x: usize| a[x % 5].iter().fold(0, |sum, lane| sum ^ lane);
    let mut out = *a;
    for (x, sheet) in out.iter_mut().enumerate() {
        let d = column(x + 4) ^ column(x + 1).rotate_left(1);
        sheet.iter_mut().for_each(|lane| *lane ^= d);
    }
    out
}

fn rho_and_pi(a: &State) -> State {
    let mut out = [[0; 5]; 5];
    for x in 0..5 {
        for y in 0..5 {
            out[y][(2 * x + 3 * y) % 5] = a[x][y].rotate_left(ROTATION_OFFSETS[x][y]);
        }
    }
    out
}

fn chi(a: &State) -> State {
    let mut out = [[0; 5]; 5];
    for x in 0..5 {
        for y in 0..5 {
            out[x][y] = a[x][y] ^ (!a[(x + 1) % 5][y] & a[(x + 2) % 5][y]);
        }
    }
    out
}

/// Keccak-f[1600].
pub fn permute(a: &mut State) {
    for constant in ROUND_CONSTANTS {
        *a = chi(&rho_and_pi(&theta(a)));
        a[0][0] ^= constant;
    }
}

/// The sponge on the whole padded string.
pub fn shake(rate: usize, input: &[u8], len: usize) -> Vec<u8> {
    let mut padded = input.to_vec();
    padded.push(0x1F);
    padded.resize(padded.len().next_multiple_of(rate), 0);
    *padded.last_mut().unwrap() |= 0x80;
    let mut state: State = [[0; 5]; 5];
    for block in padded.chunks(rate) {
        for (i, lane) in block.chunks(8).enumerate() {
            state[i % 5][i / 5] ^= u64::from_le_bytes(lane.try_into().unwrap());
        }
        permute(&mut state);
    }
    let mut out = Vec::with_capacity(len + rate);
    loop {
        let lanes = (0..rate / 8).flat_map(|i| state[i % 5][i / 5].to_le_bytes());
        out.extend(lanes);
        if out.len() >= len {
            out.truncate(len);
            return out;
        }
        permute(&mut state);
    }
}

/// A published output: the input, how many bytes, and the last of them.
pub type Published = (&'static [u8], usize, &'static str);

/// From FIPS 202's example files, and from NIST's short message files.
pub const PUBLISHED_128: [Published; 5] = [
    (b"", 32, "7f9c2ba4e88f827d616045507605853ed73b8093f6efbc88eb1a6eacfa66ef26"),
    (b"", 512, "dda2529833462b71a41a45be97290b6f"),
    (&[0xA3; 200], 32, "131ab8d2b594946b9c81333f9bb6e0ce75c3b93104fa3469d3917457385da037"),
    (&[0xA3; 200], 512, "f17d7259ab075216c0699511643b6439"),
    (&[0x0E], 16, "fa996dafaa208d72287c23bc4ed4bfd5"),
];

/// From FIPS 202's example files.
pub const PUBLISHED_256: [Published; 4] = [
    (b"", 32, "46b9dd2b0ba88d13233b3feb743eeb243fcd52ea62b81b82b50c27646ed5762f"),
    (b"", 512, "1fd166c796b9cc258a064a8f57e27f2a"),
    (&[0xA3; 200], 32, "cd8a920ed141aa0407a22d59288652e9d9f1a7ee0c1e7c1ca699424da84a904d"),
    (&[0xA3; 200], 512, "ca92bf0be5615e96959d767197a0beeb"),
];

/// Holds a program to published outputs.
pub fn demand_published(published: &[Published], hash: impl Fn(&[u8], usize) -> Vec<u8>) {
    for &(input, len, end) in published {
        let digits: String = hash(input, len).iter().map(|b| format!("{b:02x}")).collect();
        assert_eq!(&digits[2 * len - end.len()..], end, "the end of {len} bytes of {} bytes", input.len());
    }
}

#[cfg(test)]
mod tests {
    use super::*;

    #[test]
    fn published_strings() {
        demand_published(&PUBLISHED_128, |input, len| shake(SHAKE128_RATE, input, len));
        demand_published(&PUBLISHED_256, |input, len| shake(SHAKE256_RATE, input, len));
        assert!(shake(SHAKE128_RATE, b"", 0).is_empty());
    }

    /// Keccak-f[1600] on the state of zeros.
    #[test]
    fn the_permutation_of_zeros() {
        let mut state = [[0; 5]; 5];
        permute(&mut state);
        assert_eq!(state[0][0], 0xF125_8F79_40E1_DDE7);
        assert_eq!(state[4][4], 0xEAF1_FF7B_5CEC_A249);
    }

    #[test]
    fn a_shorter_output_is_a_prefix() {
        let long = shake(SHAKE128_RATE, b"grid", 700);
        for len in 0..700 {
            assert_eq!(shake(SHAKE128_RATE, b"grid", len), long[..len]);
        }
    }
}
