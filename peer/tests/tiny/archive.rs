//! The proved code at tiny sizes, called as C calls it: a slice is a pointer and a length.

use crate::short::{SHAKE128, SHAKE256};
use peer::scheme::RoundCase;
use peer::sizes::Sizes;

/// A slice that is read, and one that is written.
type In = *const u8;
type Out = *mut u8;

type MakeKey = unsafe extern "C" fn(In, usize, Out, usize) -> u8;
type Sign = unsafe extern "C" fn(In, usize, In, usize, In, usize, In, usize, Out, usize) -> u8;
type Verify = unsafe extern "C" fn(In, usize, In, usize, In, usize) -> u8;
#[rustfmt::skip] // a line for each argument of the entry
type VerifyRound = unsafe extern "C" fn(
    In, usize,
    In, usize,
    u32,
    In, usize,
    In, usize,
    u32,
    In, usize,
    u32,
    In, usize,
) -> u8;

/// The four functions at one set of sizes.
pub struct Tiny {
    pub name: &'static str,
    pub sizes: Sizes,
    make_key: MakeKey,
    sign: Sign,
    verify: Verify,
    verify_round: VerifyRound,
}

/// Declares the four functions, and puts them beside their sizes.
#[rustfmt::skip] // a line for each slice
macro_rules! tiny {
    ($sizes:ident, $make_key:ident, $sign:ident, $verify:ident, $verify_round:ident) => {{
        extern "C" {
            fn $make_key(private: In, private_len: usize, key: Out, key_len: usize) -> u8;
            fn $sign(
                private: In, private_len: usize,
                master: In, master_len: usize,
                salt: In, salt_len: usize,
                msg: In, msg_len: usize,
                sig: Out, sig_len: usize,
            ) -> u8;
            fn $verify(key: In, key_len: usize, msg: In, msg_len: usize, sig: In, sig_len: usize) -> u8;
            fn $verify_round(
                key: In, key_len: usize,
                salt: In, salt_len: usize,
                i: u32,
                c0: In, c0_len: usize,
                c1: In, c1_len: usize,
                beta: u32,
                h: In, h_len: usize,
                challenge: u32,
                reply: In, reply_len: usize,
            ) -> u8;
        }
        Tiny {
            name: stringify!($sizes),
            sizes: $sizes,
            make_key: $make_key,
            sign: $sign,
            verify: $verify,
            verify_round: $verify_round,
        }
    }};
}

/// Over SHAKE128 as at category 1, and over SHAKE256 as at the others.
pub const TINIES: [Tiny; 2] = [
    tiny!(SHAKE128, tiny_make_key, tiny_sign, tiny_verify, tiny_verify_round),
    tiny!(SHAKE256, tiny_shake256_make_key, tiny_shake256_sign, tiny_shake256_verify, tiny_shake256_verify_round),
];

// SAFETY, of all four: the slices are alive for the call, and the one that is written overlaps no other.
impl Tiny {
    pub fn make_key(&self, private: &[u8], key: &mut [u8]) -> u8 {
        unsafe { (self.make_key)(private.as_ptr(), private.len(), key.as_mut_ptr(), key.len()) }
    }

    pub fn sign(&self, private: &[u8], master: &[u8], salt: &[u8], msg: &[u8], sig: &mut [u8]) -> u8 {
        let [(a, b), (c, d), (e, f), (g, h)] = [private, master, salt, msg].map(|s| (s.as_ptr(), s.len()));
        unsafe { (self.sign)(a, b, c, d, e, f, g, h, sig.as_mut_ptr(), sig.len()) }
    }

    pub fn verify(&self, key: &[u8], msg: &[u8], sig: &[u8]) -> u8 {
        let [(a, b), (c, d), (e, f)] = [key, msg, sig].map(|s| (s.as_ptr(), s.len()));
        unsafe { (self.verify)(a, b, c, d, e, f) }
    }

    pub fn verify_round(&self, case: &RoundCase) -> u8 {
        let RoundCase { key, salt, commitment_0, commitment_1, response, reply, .. } = case;
        let [(a, b), (c, d), (e, f), (g, h), (i, j), (k, l)] =
            [key, salt, commitment_0, commitment_1, response, reply].map(|s| (s.as_ptr(), s.len()));
        let (round, first, second) = (case.round, case.first_challenge, case.second_challenge);
        unsafe { (self.verify_round)(a, b, c, d, round, e, f, g, h, first, i, j, second, k, l) }
    }
}
