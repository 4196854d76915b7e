//! A stand-in for SHAKE that takes few steps, for runs of the definitions inside a proof.

fn step(state: u32, byte: u32) -> u32 {
    (state * 75 + byte + 1) % 65537
}

/// The string is mixed into a number modulo 65537, which then gives the bytes.
pub fn toy(rate: usize, input: &[u8], len: usize) -> Vec<u8> {
    let mut state = input.iter().fold(rate as u32, |state, &byte| step(state, u32::from(byte)));
    let mut next = || {
        state = step(state, 0);
        (state / 4 % 256) as u8
    };
    (0..len).map(|_| next()).collect()
}
