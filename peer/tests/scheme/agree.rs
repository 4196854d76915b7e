//! Each entry of the scheme, called in both programs.

use peer::archive::Category;
use peer::harness::Tally;
use peer::rng::Rng;
use peer::scheme::cases::{attempt, Signed};
use peer::scheme::{self, RoundCase};
use peer::sizes::Sizes;

/// What is signed: private seed, master seed, salt, message.
pub type Parts = [Vec<u8>; 4];

/// A comparison at one category.
pub struct Agree {
    category: Category,
    tally: Tally,
}

impl Agree {
    pub fn new(category: &Category, what: &str) -> Agree {
        Agree { category: *category, tally: category.tally(what) }
    }

    fn sizes(&self) -> Sizes {
        self.category.sizes
    }

    pub fn make_key(&mut self, private_seed: &[u8], room: usize) -> u8 {
        let (category, s) = (self.category, self.sizes());
        let shown = || format!("{private_seed:02x?} into {room} bytes");
        let plain = |out: &mut [u8]| scheme::make_key(&s, private_seed, out);
        self.tally.both(room, |out| category.make_key(private_seed, out), plain, shown)
    }

    pub fn sign(&mut self, parts: &Parts, room: usize) -> u8 {
        let (category, s, [private, master, salt, message]) = (self.category, self.sizes(), parts);
        let shown = || format!("{private:02x?} {master:02x?} {salt:02x?} {} bytes into {room} bytes", message.len());
        let proved = |out: &mut [u8]| category.sign(private, master, salt, message, out);
        self.tally.both(room, proved, |out| scheme::sign(&s, private, master, salt, message, out), shown)
    }

    /// Judged by the other program's clear checker, and by its fast one, which must say the same.
    pub fn verify(&mut self, key: &[u8], message: &[u8], signature: &[u8]) -> u8 {
        let clear = scheme::verify(&self.sizes(), key, message, signature);
        let fast = (self.category.plain.verify)(key, message, signature);
        assert_eq!(fast, clear, "the fast checker beside the clear one on {key:02x?} {message:02x?} {signature:02x?}");
        self.compared(key, message, signature, clear)
    }

    /// Judged by the fast checker alone, where the clear one would take too long.
    pub fn verify_fast(&mut self, key: &[u8], message: &[u8], signature: &[u8]) -> u8 {
        let expected = (self.category.plain.verify)(key, message, signature);
        self.compared(key, message, signature, expected)
    }

    /// Judged by both checkers where `clearly`, else by the fast one.
    pub fn verify_by(&mut self, clearly: bool, key: &[u8], message: &[u8], signature: &[u8]) -> u8 {
        if clearly {
            self.verify(key, message, signature)
        } else {
            self.verify_fast(key, message, signature)
        }
    }

    fn compared(&mut self, key: &[u8], message: &[u8], signature: &[u8], expected: u8) -> u8 {
        let answer = self.category.verify(key, message, signature);
        self.tally.count(answer, expected, || format!("{key:02x?} {message:02x?} {signature:02x?}"));
        answer
    }

    pub fn verify_round(&mut self, case: &RoundCase) -> u8 {
        let expected = scheme::verify_round(&self.sizes(), case);
        self.tally.count(self.category.verify_round(case), expected, || format!("{case:02x?}"));
        expected
    }

    pub fn finish(self, least: usize, reached: &[u8]) {
        self.tally.finish(least, reached);
    }
}

/// A key and a signature that hold.
pub fn signed(s: &Sizes, rng: &mut Rng, message_len: usize) -> Signed {
    let (key_answer, sign_answer, made) = attempt(s, rng, message_len);
    assert_eq!((key_answer, sign_answer), (0, 0), "a draw of these sizes is short with no noticeable chance");
    made
}
