//! What a job has to do: the strings that it hashes, and the products of its syndromes.

use peer::keccak::shake;
use peer::sizes::Sizes;
use std::cell::RefCell;

/// Strings in the order in which they are hashed: length, and bytes drawn.
pub type Strings = Vec<(usize, usize)>;

thread_local! {
    static HASHED: RefCell<Strings> = const { RefCell::new(Vec::new()) };
}

/// SHAKE that keeps the lengths.
fn noted(rate: usize, string: &[u8], drawn: usize) -> Vec<u8> {
    HASHED.with_borrow_mut(|all| all.push((string.len(), drawn)));
    shake(rate, string, drawn)
}

/// The strings of a job: those that the clear program hashes while it does the job at these sizes.
pub fn strings(s: &Sizes, job: impl FnOnce(&Sizes)) -> Strings {
    job(&Sizes { hash: noted, ..*s });
    HASHED.take()
}

/// Permutations that the strings need: one for each block of a padded string, which is a byte longer at
/// least, and one for each block drawn after the first.
pub fn permutations(s: &Sizes, strings: &Strings) -> usize {
    strings.iter().map(|&(len, drawn)| (len + 1).div_ceil(s.rate) + drawn.div_ceil(s.rate) - 1).sum()
}
