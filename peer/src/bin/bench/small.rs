//! Rows of the small entries: SHAKE, samples, packing, lines, formulas.

use crate::measure::least;
use crate::stacks::Stacks;
use crate::table::{print, Row};
use peer::archive::{self, Category};
use peer::entries;
use peer::evaluate::cases::LISTED;
use peer::evaluate::evaluate_line;
use peer::fast::keccak::shake;
use peer::fast::packing as plain_packing;
use peer::harness::Function;
use peer::keccak::{SHAKE128_RATE, SHAKE256_RATE};
use peer::line::{image, read_line, write_line, Profile, Rate, IMAGE, LONGEST};
use peer::openssl::{self, Shake};
use peer::preview::cases::USUAL;
use peer::rng::Rng;
use peer::sizes::{Sizes, CATEGORY_1, CATEGORY_3, CATEGORY_5};
use peer::table::{BUILT_IN, BUILT_IN_IMAGE};
use std::ffi::CStr;
use std::hint::black_box;

/// Different inputs of a row, all timed at once: one call is too short for the clock.
const INPUTS: usize = 32;

fn many(mut make: impl FnMut() -> Vec<u8>) -> Vec<Vec<u8>> {
    (0..INPUTS).map(|_| make()).collect()
}

/// One entry over inputs and a buffer of `out_len` bytes.
struct Job<'a> {
    entry: String,
    inputs: &'a [Vec<u8>],
    out_len: usize,
    proved: &'a dyn Fn(&[u8], &mut [u8]) -> u8,
    plain: Function,
}

fn row(stacks: &Stacks, job: Job) -> Row {
    let Job { entry, inputs, out_len, proved, plain } = job;
    let (mut out, mut other_out) = (vec![0; out_len], vec![0; out_len]);
    for input in inputs {
        assert_eq!((proved(input, &mut out), plain(input, &mut other_out)), (0, 0), "{entry}");
        assert_eq!(out, other_out, "{entry}");
    }
    let mut library = |at: usize| {
        black_box(proved(&inputs[at], black_box(&mut out)));
    };
    let mut other = |at: usize| {
        black_box(plain(&inputs[at], black_box(&mut other_out)));
    };
    let times = least(INPUTS, INPUTS, &mut [&mut library, &mut other]);
    let (library, plain, stack) = (times[0], times[1], stacks.of(&entry));
    Row { name: entry, library, plain, stack, ..Row::default() }
}

/// One of the two hashes in each program, and the categories that have it.
struct Hash {
    entry: &'static str,
    proved: fn(&[u8], &mut [u8]),
    plain: fn(&[&[u8]], &mut [u8]),
    openssl: &'static CStr,
    categories: &'static [Sizes],
}

const HASHES: [Hash; 2] = [
    Hash {
        entry: "shake128",
        proved: archive::shake128,
        plain: shake::<SHAKE128_RATE>,
        openssl: openssl::SHAKE128,
        categories: &[CATEGORY_1],
    },
    Hash {
        entry: "shake256",
        proved: archive::shake256,
        plain: shake::<SHAKE256_RATE>,
        openssl: openssl::SHAKE256,
        categories: &[CATEGORY_3, CATEGORY_5],
    },
];

/// Bytes of longer messages.
const MESSAGES: [usize; 3] = [1_024, 16_384, 65_536];

impl Hash {
    /// Lengths in and out: a round's draw, a commitment and the matrix of each category, then messages.
    fn lengths(&self) -> Vec<(usize, usize)> {
        let of_category = |s: &Sizes| {
            let round = s.salt + 2;
            [
                (1 + s.round_seed + round, s.exponents_block),
                (1 + s.packed_syndrome() + s.packed_exponents() + round, s.digest),
                (1 + s.key_seed, s.matrix_block),
            ]
        };
        let digest = self.categories[0].digest;
        self.categories.iter().flat_map(of_category).chain(MESSAGES.map(|len| (len, digest))).collect()
    }

    fn row(&self, rng: &mut Rng, other: &mut Option<Shake>, len: usize, out_len: usize) -> Row {
        let name = format!("{}, {len} to {out_len} bytes", self.entry.to_uppercase());
        let inputs = many(|| rng.bytes(len));
        let mut outs = [(); 3].map(|()| vec![0; out_len]);
        let [out, plain_out, openssl_out] = &mut outs;
        let mut library = |at: usize| (self.proved)(&inputs[at], black_box(out));
        let mut plain = |at: usize| (self.plain)(&[&inputs[at]], black_box(plain_out));
        let times = match other {
            Some(openssl) => {
                let mut other = |at: usize| openssl.hash(&inputs[at], black_box(openssl_out));
                least(INPUTS, INPUTS, &mut [&mut library, &mut plain, &mut other])
            }
            None => least(INPUTS, INPUTS, &mut [&mut library, &mut plain]),
        };
        assert_eq!(outs[0], outs[1], "{name}");
        assert!(other.is_none() || outs[0] == outs[2], "{name}");
        Row { name, library: times[0], plain: times[1], openssl: times.get(2).copied(), ..Row::default() }
    }
}

pub fn hashing(rng: &mut Rng, stacks: &Stacks) {
    for hash in &HASHES {
        let mut openssl = Shake::load(hash.openssl);
        if openssl.is_none() {
            println!("no OpenSSL 3 was found: its column stays empty");
        }
        for (len, out_len) in hash.lengths() {
            let row = hash.row(rng, &mut openssl, len, out_len);
            print(&Row { stack: stacks.of(hash.entry), ..row });
        }
    }
}

type Sample = fn(&Category, &[u8], &mut [u8]) -> u8;

/// The entries of a category that draw from a block: name, block, count, and both programs.
fn samples(c: &Category) -> [(&str, usize, usize, Sample, Function); 5] {
    let (s, plain) = (&c.sizes, &c.plain);
    let (first, second) = (s.first_challenges_block, s.second_challenge_block);
    [
        ("sample_matrix", s.matrix_block, s.matrix(), Category::sample_matrix, plain.sample_matrix),
        ("sample_exponents", s.exponents_block, s.n, Category::sample_exponents, plain.sample_exponents),
        ("sample_mask_values", s.mask_values_block, s.n, Category::sample_mask_values, plain.sample_mask_values),
        ("sample_first_challenges", first, s.t, Category::sample_first_challenges, plain.sample_first_challenges),
        ("sample_second_challenge", second, s.t, Category::sample_second_challenge, plain.sample_second_challenge),
    ]
}

pub fn sampling(category: &Category, rng: &mut Rng, stacks: &Stacks) {
    for (entry, block, out_len, proved, plain) in samples(category) {
        let inputs = many(|| rng.bytes(block));
        let proved = |block: &[u8], out: &mut [u8]| proved(category, block, out);
        print(&row(stacks, Job { entry: category.name_in_c(entry), inputs: &inputs, out_len, proved: &proved, plain }));
    }
}

/// Packing and unpacking of 127 numbers below `limit`.
fn packing_of(rng: &mut Rng, stacks: &Stacks, limit: usize, packed_len: usize, pack: Pair, unpack: Pair) {
    let numbers = many(|| rng.numbers(CATEGORY_1.n, limit));
    let packed = |x: &Vec<u8>| {
        let mut out = vec![0; packed_len];
        assert_eq!((pack.2)(x, &mut out), 0);
        out
    };
    let packed: Vec<Vec<u8>> = numbers.iter().map(packed).collect();
    for (inputs, out_len, (entry, proved, plain)) in [(numbers, packed_len, pack), (packed, CATEGORY_1.n, unpack)] {
        print(&row(stacks, Job { entry: entry.to_string(), inputs: &inputs, out_len, proved: &proved, plain }));
    }
}

/// An entry in the library and in the plain program.
type Pair = (&'static str, Function, Function);

pub fn packing(rng: &mut Rng, stacks: &Stacks) {
    let s = CATEGORY_1;
    let pack = ("pack_values", archive::pack_values as Function, plain_packing::pack_values as Function);
    let unpack = ("unpack_values", archive::unpack_values as Function, plain_packing::unpack_values as Function);
    packing_of(rng, stacks, 127, s.packed_values(), pack, unpack);
    let pack = ("pack_exponents", archive::pack_exponents as Function, plain_packing::pack_exponents as Function);
    let unpack =
        ("unpack_exponents", archive::unpack_exponents as Function, plain_packing::unpack_exponents as Function);
    packing_of(rng, stacks, 7, s.packed_exponents(), pack, unpack);
}

const READ: Pair = (
    "read_line",
    |line, image| archive::read_line(&BUILT_IN_IMAGE, line, image),
    |line, image| entries::read_line(&BUILT_IN_IMAGE, line, image),
);
const WRITE: Pair = (
    "write_line",
    |image, line| archive::write_line(&BUILT_IN_IMAGE, image, line, 0).0,
    |image, line| entries::write_line(&BUILT_IN_IMAGE, image, line, 0).0,
);

/// The usual line of each kind, read and written under the built-in classes, for many countries.
pub fn lines(stacks: &Stacks) {
    let usual = read_line(&BUILT_IN, USUAL.as_bytes()).expect("a line");
    let country = |at: usize| [b'A' + (at / 26) as u8, b'A' + (at % 26) as u8];
    let (line, image) = (|p: &Profile| write_line(&BUILT_IN, p).expect("valid"), |p: &Profile| image(p).to_vec());
    let entries = [(line as fn(&Profile) -> Vec<u8>, IMAGE, READ), (image, LONGEST, WRITE)];
    for (input, out_len, (entry, proved, plain)) in entries {
        for (kind, rate) in [("GP1", None), ("GP2", Some(Rate { limit: 2_000, delay: 500 }))] {
            let profiles = (0..INPUTS).map(|at| Profile { country: country(at), rate, ..usual });
            let inputs: Vec<Vec<u8>> = profiles.map(|profile| input(&profile)).collect();
            let job = Job { entry: entry.to_string(), inputs: &inputs, out_len, proved: &proved, plain };
            print(&Row { name: format!("{entry}, {kind}"), ..row(stacks, job) });
        }
    }
}

/// The worked line of each kind evaluated, at many volts.
pub fn formulas(stacks: &Stacks) {
    let plain = |input: &[u8], line: &mut [u8]| evaluate_line(&BUILT_IN_IMAGE, input, line, 0).0;
    let proved = |input: &[u8], line: &mut [u8]| archive::evaluate_line(&BUILT_IN_IMAGE, input, line, 0).0;
    for (kind, (_, line, _)) in ["GP1", "GP2"].into_iter().zip(LISTED) {
        let at_volts = |at: usize| line.replace(",230,", &format!(",{},", 229 - at)).into_bytes();
        let inputs: Vec<Vec<u8>> = (0..INPUTS).map(at_volts).collect();
        let entry = "evaluate_line".to_string();
        let job = Job { entry, inputs: &inputs, out_len: LONGEST, proved: &proved, plain };
        let row = row(stacks, job);
        print(&Row { name: format!("{}, {kind}", row.name), ..row });
    }
}
