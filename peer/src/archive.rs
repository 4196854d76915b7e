//! The proved library over slices, called as C calls it.

pub mod both;
pub mod c;
mod category;
pub mod samples;

pub use category::{Category, CATEGORIES, CATEGORY_1, CATEGORY_3, CATEGORY_5};

use crate::store::{Device, Measured};

macro_rules! entries {
    ($($name:ident is $symbol:ident;)*) => {
        $(pub fn $name(input: &[u8], out: &mut [u8]) -> u8 {
            // SAFETY: both slices are alive for the call and do not overlap.
            unsafe { c::$symbol(input.as_ptr(), input.len(), out.as_mut_ptr(), out.len()) }
        })*
    };
}

entries! {
    pack_values is gridprofile_pack_values;
    unpack_values is gridprofile_unpack_values;
    pack_exponents is gridprofile_pack_exponents;
    unpack_exponents is gridprofile_unpack_exponents;
    read_table is gridprofile_read_table;
}

pub fn shake128(input: &[u8], out: &mut [u8]) {
    // SAFETY: as above.
    unsafe { c::gridprofile_shake128(input.as_ptr(), input.len(), out.as_mut_ptr(), out.len()) }
}

pub fn shake256(input: &[u8], out: &mut [u8]) {
    // SAFETY: as above.
    unsafe { c::gridprofile_shake256(input.as_ptr(), input.len(), out.as_mut_ptr(), out.len()) }
}

pub fn read_line(table: &[u8], line: &[u8], profile: &mut [u8]) -> u8 {
    let [(a, b), (c, d)] = [table, line].map(|s| (s.as_ptr(), s.len()));
    // SAFETY: as above.
    unsafe { c::gridprofile_read_line(a, b, c, d, profile.as_mut_ptr(), profile.len()) }
}

macro_rules! entries_under_a_table {
    ($($name:ident is $symbol:ident;)*) => {
        $(/// The answer, and the length: what it was before, where the entry did not write it.
        pub fn $name(table: &[u8], input: &[u8], out: &mut [u8], mut length: usize) -> (u8, usize) {
            let [(a, b), (c, d)] = [table, input].map(|s| (s.as_ptr(), s.len()));
            let (e, f) = (out.as_mut_ptr(), out.len());
            // SAFETY: as above; the length is a variable of its own.
            let answer = unsafe { c::$symbol(a, b, c, d, e, f, &mut length) };
            (answer, length)
        })*
    };
}

entries_under_a_table! {
    write_line is gridprofile_write_line;
    evaluate_line is gridprofile_evaluate_line;
    preview is gridprofile_preview;
}

pub fn load_table(store: &mut [u8], file: &[u8]) -> u8 {
    // SAFETY: as above.
    unsafe { c::gridprofile_load_table(store.as_mut_ptr(), store.len(), file.as_ptr(), file.len()) }
}

/// Answer and length, as `write_line` gives them.
pub fn lookup(store: &[u8], device: &Device, line: &mut [u8], mut length: usize) -> (u8, usize) {
    let [(a, b), (c, d)] = [store, device.country].map(|s| (s.as_ptr(), s.len()));
    let (e, f) = (line.as_mut_ptr(), line.len());
    // SAFETY: as above.
    let answer = unsafe { c::gridprofile_lookup(a, b, c, d, device.class, device.hertz, e, f, &mut length) };
    (answer, length)
}

/// Answer and length, as `write_line` gives them.
pub fn nearest(store: &[u8], measured: &Measured, line: &mut [u8], mut length: usize) -> (u8, usize) {
    let [(a, b), (c, d)] = [store, measured.country].map(|s| (s.as_ptr(), s.len()));
    let (e, f) = (line.as_mut_ptr(), line.len());
    // SAFETY: as above.
    let answer = unsafe { c::gridprofile_nearest(a, b, c, d, measured.hertz, measured.volts, e, f, &mut length) };
    (answer, length)
}
