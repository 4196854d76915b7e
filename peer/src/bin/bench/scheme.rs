//! Rows of key making, signing and verifying, at each category.

use crate::measure::{least, Program};
use crate::stacks::Stacks;
use crate::table::{print, Row};
use crate::work::{self, Strings};
use peer::archive::{self, Category};
use peer::keccak::SHAKE128_RATE;
use peer::rng::Rng;
use peer::scheme as clear;
use peer::sizes::Sizes;
use std::hint::black_box;

/// Different inputs of a row. A call is long enough for the clock: the programs alternate call by call.
pub const INPUTS: usize = 4;

/// Bytes of a usual line.
pub const LINE: usize = 56;

/// A signing, with everything that went into it.
pub struct Signed {
    pub category: &'static Category,
    pub seeds: [Vec<u8>; 3],
    pub message: Vec<u8>,
    pub key: Vec<u8>,
    pub signature: Vec<u8>,
}

impl Signed {
    /// The seeds are drawn; both programs make the same key and signature.
    pub fn draw(category: &'static Category, rng: &mut Rng, message: &[u8]) -> Signed {
        let s = &category.sizes;
        let seeds = [s.key_seed, s.round_seed, s.salt].map(|len| rng.bytes(len));
        let mut made = Signed { category, seeds, message: message.to_vec(), key: vec![], signature: vec![] };
        made.key = made.by_both(&MAKE_KEY, s.key());
        made.signature = made.by_both(&SIGN, s.signature());
        made
    }

    /// The first bytes of what both programs make.
    fn by_both(&self, job: &Job, len: usize) -> Vec<u8> {
        let [mut own, mut other] = [(); 2].map(|()| vec![0; self.sizes().signature()]);
        assert_eq!([(job.library)(self, &mut own), (job.plain)(self, &mut other)], [0, 0], "{}", job.entry);
        assert!(own == other, "{} differs", job.entry);
        own.truncate(len);
        own
    }

    pub fn sizes(&self) -> &'static Sizes {
        &self.category.sizes
    }
}

/// A job over a signing and a lent buffer as long as a signature, in three programs, and how many syndromes
/// it computes.
pub struct Job {
    pub entry: &'static str,
    pub library: fn(&Signed, &mut [u8]) -> u8,
    pub plain: fn(&Signed, &mut [u8]) -> u8,
    clear: fn(&Sizes, &Signed, &mut [u8]) -> u8,
    syndromes: fn(&Sizes) -> usize,
}

pub const MAKE_KEY: Job = Job {
    entry: "make_key",
    library: |at, out| at.category.make_key(&at.seeds[0], &mut out[..at.sizes().key()]),
    plain: |at, out| (at.category.plain.make_key)(&at.seeds[0], &mut out[..at.sizes().key()]),
    clear: |s, at, out| clear::make_key(s, &at.seeds[0], &mut out[..at.sizes().key()]),
    syndromes: |_| 1,
};

pub const SIGN: Job = Job {
    entry: "sign",
    library: |Signed { category, seeds: [seed, master, salt], message, .. }, out| {
        category.sign(seed, master, salt, message, out)
    },
    plain: |Signed { category, seeds: [seed, master, salt], message, .. }, out| {
        (category.plain.sign)(seed, master, salt, message, out)
    },
    clear: |s, Signed { seeds: [seed, master, salt], message, .. }, out| {
        clear::sign(s, seed, master, salt, message, out)
    },
    syndromes: |s| s.t,
};

pub const VERIFY: Job = Job {
    entry: "verify",
    library: |at, _| at.category.verify(&at.key, &at.message, &at.signature),
    plain: |at, _| (at.category.plain.verify)(&at.key, &at.message, &at.signature),
    clear: |s, at, _| clear::verify(s, &at.key, &at.message, &at.signature),
    syndromes: |s| s.t - s.w,
};

pub const JOBS: [Job; 3] = [MAKE_KEY, SIGN, VERIFY];

impl Job {
    /// The strings that it hashes.
    pub fn strings(&self, at: &Signed) -> Strings {
        work::strings(at.sizes(), |s| {
            assert_eq!((self.clear)(s, at, &mut vec![0; s.signature()]), 0, "{}", self.entry);
        })
    }

    /// Products of values in its syndromes: one for each value of V.
    pub fn products(&self, s: &Sizes) -> usize {
        (self.syndromes)(s) * s.matrix()
    }
}

/// Times both programs and, in the same turns, the library's SHAKE over strings of the same lengths.
pub fn row(c: &Category, entry: &str, stacks: &Stacks, strings: &Strings, library: Program, plain: Program) {
    let name = c.name_in_c(entry);
    let shake = if c.sizes.rate == SHAKE128_RATE { archive::shake128 } else { archive::shake256 };
    let longest = strings.iter().fold((0, 0), |most, &(len, drawn)| (most.0.max(len), most.1.max(drawn)));
    let (input, mut out) = (vec![0; longest.0], vec![0; longest.1]);
    let mut hash = |_: usize| {
        strings.iter().for_each(|&(len, drawn)| shake(&input[..len], black_box(&mut out[..drawn])));
    };
    let times = least(INPUTS, 1, &mut [library, plain, &mut hash]);
    let (library, plain, hashing, stack) = (times[0], times[1], Some(times[2]), stacks.of(&name));
    print(&Row { name, library, plain, hashing, stack, openssl: None });
}

/// Signings of messages as long as a line.
pub fn signings(category: &'static Category, rng: &mut Rng) -> [Signed; INPUTS] {
    [(); INPUTS].map(|()| {
        let message = rng.bytes(LINE);
        Signed::draw(category, rng, &message)
    })
}

pub fn rows(category: &'static Category, rng: &mut Rng, stacks: &Stacks) {
    let cases = signings(category, rng);
    let [mut out, mut other] = [(); 2].map(|()| cases[0].signature.clone());
    for job in &JOBS {
        let mut library = |at: usize| assert_eq!((job.library)(&cases[at], black_box(&mut out)), 0);
        let mut plain = |at: usize| assert_eq!((job.plain)(&cases[at], black_box(&mut other)), 0);
        row(category, job.entry, stacks, &job.strings(&cases[0]), &mut library, &mut plain);
    }
}
