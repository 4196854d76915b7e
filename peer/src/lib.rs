//! An independent second program for signed grid profiles.
//!
//! It is written from the paper that fixes the library's behaviour and from FIPS 202, and shares no
//! line with the proved code: plain loops, bit by bit, for any sizes. The tests of this crate hold
//! the proved archive to it.

#[cfg(not(test))] // the unit tests run without the archive
pub mod archive;
pub mod bits;
pub mod draws;
pub mod entries;
pub mod evaluate;
pub mod fast;
pub mod formula;
pub mod harness;
pub mod keccak;
pub mod line;
pub mod openssl;
pub mod preview;
pub mod refusal;
pub mod rng;
pub mod scheme;
pub mod sizes;
pub mod store;
pub mod strings;
pub mod table;
pub mod toy;
pub mod vectors;
pub mod zeros;
