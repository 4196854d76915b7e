//! The entries that each category has.

use super::c;
use crate::fast;
use crate::harness::Tally;
use crate::scheme::RoundCase;
use crate::sizes::{self, Sizes};
use crate::store::Device;

/// A category: its sizes, its functions in the archive, and the fast program for it.
#[derive(Clone, Copy)]
pub struct Category {
    pub number: u8,
    pub sizes: Sizes,
    pub functions: c::Functions,
    pub plain: fast::Scheme,
}

pub const CATEGORY_1: Category =
    Category { number: 1, sizes: sizes::CATEGORY_1, functions: c::CATEGORY_1, plain: fast::CATEGORY_1 };

pub const CATEGORY_3: Category =
    Category { number: 3, sizes: sizes::CATEGORY_3, functions: c::CATEGORY_3, plain: fast::CATEGORY_3 };

pub const CATEGORY_5: Category =
    Category { number: 5, sizes: sizes::CATEGORY_5, functions: c::CATEGORY_5, plain: fast::CATEGORY_5 };

pub const CATEGORIES: [Category; 3] = [CATEGORY_1, CATEGORY_3, CATEGORY_5];

macro_rules! pairs {
    ($($name:ident)*) => {
        $(pub fn $name(&self, input: &[u8], out: &mut [u8]) -> u8 {
            // SAFETY: both slices are alive for the call and do not overlap.
            unsafe { (self.functions.$name)(input.as_ptr(), input.len(), out.as_mut_ptr(), out.len()) }
        })*
    };
}

impl Category {
    /// The name of an entry in C, after `gridprofile_`.
    pub fn name_in_c(&self, entry: &str) -> String {
        match self.number {
            1 => entry.to_string(),
            number => format!("category{number}_{entry}"),
        }
    }

    /// What a comparison at this category is called.
    pub fn named(&self, what: &str) -> String {
        format!("category {}, {what}", self.number)
    }

    pub fn tally(&self, what: &str) -> Tally {
        Tally::new(self.named(what))
    }

    pairs! {
        sample_matrix
        sample_exponents
        sample_mask_values
        sample_first_challenges
        sample_second_challenge
        make_key
    }

    pub fn sign(&self, private: &[u8], master: &[u8], salt: &[u8], message: &[u8], signature: &mut [u8]) -> u8 {
        let [(a, b), (c, d), (e, f), (g, h)] = [private, master, salt, message].map(|s| (s.as_ptr(), s.len()));
        // SAFETY: as above.
        unsafe { (self.functions.sign)(a, b, c, d, e, f, g, h, signature.as_mut_ptr(), signature.len()) }
    }

    pub fn verify(&self, key: &[u8], message: &[u8], signature: &[u8]) -> u8 {
        let [(a, b), (c, d), (e, f)] = [key, message, signature].map(|s| (s.as_ptr(), s.len()));
        // SAFETY: as above.
        unsafe { (self.functions.verify)(a, b, c, d, e, f) }
    }

    pub fn verify_round(&self, case: &RoundCase) -> u8 {
        let RoundCase { key, salt, commitment_0, commitment_1, response, reply, .. } = case;
        let slices = [key, salt, commitment_0, commitment_1, response, reply].map(|s| (s.as_ptr(), s.len()));
        let [(a, b), (c, d), (e, f), (g, h), (i, j), (k, l)] = slices;
        let (round, first, second) = (case.round, case.first_challenge, case.second_challenge);
        // SAFETY: as above.
        unsafe { (self.functions.verify_round)(a, b, c, d, round, e, f, g, h, first, i, j, second, k, l) }
    }

    /// The answer, and the length: what it was before, where the entry did not write it.
    pub fn make_package(
        &self,
        table: &[u8],
        [private, master, salt]: [&[u8]; 3],
        line: &[u8],
        package: &mut [u8],
        mut length: usize,
    ) -> (u8, usize) {
        let slices = [table, private, master, salt, line].map(|s| (s.as_ptr(), s.len()));
        let [(a, b), (c, d), (e, f), (g, h), (i, j)] = slices;
        let (k, l) = (package.as_mut_ptr(), package.len());
        // SAFETY: as above; the length is a variable of its own.
        let answer = unsafe { (self.functions.make_package)(a, b, c, d, e, f, g, h, i, j, k, l, &mut length) };
        (answer, length)
    }

    pub fn load(&self, store: &mut [u8], key: &[u8], package: &[u8], device: &Device) -> u8 {
        let [(a, b), (c, d), (e, f)] = [key, package, device.country].map(|s| (s.as_ptr(), s.len()));
        let (g, h) = (store.as_mut_ptr(), store.len());
        // SAFETY: as above.
        unsafe { (self.functions.load)(g, h, a, b, c, d, e, f, device.class, device.hertz) }
    }
}
