//! SHAKE128 and SHAKE256 beside the independent Keccak and published outputs, and beside Python's
//! hashlib and the system's OpenSSL where they are there.

use peer::harness::{Comparison, Function};
use peer::keccak::{demand_published, shake, Published, PUBLISHED_128, PUBLISHED_256, SHAKE128_RATE, SHAKE256_RATE};
use peer::openssl::{self, Shake};
use peer::rng::Rng;
use peer::{archive, entries};
use std::ffi::CStr;
use std::process::Command;

/// One of the two functions. Neither has an answer; the harness wants one.
struct Hash {
    name: &'static str,
    rate: usize,
    proved: Function,
    plain: Function,
    published: &'static [Published],
    of_python: &'static str,
    of_openssl: &'static CStr,
}

const SHAKE128: Hash = Hash {
    name: "shake128",
    rate: SHAKE128_RATE,
    proved: |input, out| {
        archive::shake128(input, out);
        0
    },
    plain: |input, out| {
        entries::shake128(input, out);
        0
    },
    published: &PUBLISHED_128,
    of_python: "shake_128",
    of_openssl: openssl::SHAKE128,
};

const SHAKE256: Hash = Hash {
    name: "shake256",
    rate: SHAKE256_RATE,
    proved: |input, out| {
        archive::shake256(input, out);
        0
    },
    plain: |input, out| {
        entries::shake256(input, out);
        0
    },
    published: &PUBLISHED_256,
    of_python: "shake_256",
    of_openssl: openssl::SHAKE256,
};

impl Hash {
    /// What the archive gives.
    fn of(&self, input: &[u8], len: usize) -> Vec<u8> {
        let mut out = vec![0; len];
        (self.proved)(input, &mut out);
        out
    }

    /// Outputs next to the ends of blocks.
    fn outputs(&self) -> [usize; 16] {
        let r = self.rate;
        [0, 1, 7, 8, 9, 31, 32, 33, r - 1, r, r + 1, 2 * r - 1, 2 * r, 2 * r + 1, 3 * r, 520]
    }

    fn compare(&self) {
        let mut c = Comparison::new(self.name, self.proved, self.plain);
        let mut rng = Rng::new(0x7368_616B);
        for len in 0..=700 {
            for out_len in self.outputs() {
                c.agree(&rng.bytes(len), out_len);
                c.agree(&vec![0; len], out_len);
                c.agree(&vec![0xFF; len], out_len);
            }
            for _ in 0..100 {
                c.agree(&rng.bytes(len), rng.below(521));
            }
        }
        for out_len in 0..=520 {
            c.agree(b"", out_len);
            c.agree(&[0xA3; 200], out_len);
        }
        for len in [65_535, 65_536, 65_537] {
            for out_len in [0, 32, 96, 520, 3500, 65_536] {
                c.agree(&rng.bytes(len), out_len);
            }
        }
        c.finish(&[0]);
    }
}

#[test]
fn shake128() {
    SHAKE128.compare();
}

#[test]
fn shake256() {
    SHAKE256.compare();
}

#[test]
fn published_outputs() {
    for hash in [SHAKE128, SHAKE256] {
        demand_published(hash.published, |input, len| hash.of(input, len));
    }
}

/// Inputs of every length to 700, and one long one, each with a length of its output.
fn lengths() -> impl Iterator<Item = (usize, usize)> {
    (0..=700).chain([65_536]).map(|len| (len, len % 521))
}

fn input(len: usize) -> Vec<u8> {
    (0..len).map(|i| (7 * i + 13 * len) as u8).collect()
}

/// Prints the hash of the same inputs, one line for each.
const SCRIPT: &str = "
import hashlib, sys
shake = getattr(hashlib, sys.argv[1])
for n in list(range(0, 701)) + [65536]:
    print(shake(bytes((7 * i + 13 * n) % 256 for i in range(n))).hexdigest(n % 521))
";

#[test]
fn beside_hashlib() {
    for hash in [SHAKE128, SHAKE256] {
        let run = Command::new("python3").args(["-c", SCRIPT, hash.of_python]).output();
        let Some(run) = run.ok().filter(|run| run.status.success()) else {
            println!("{} beside hashlib: left out, python3 with hashlib's is not here", hash.name);
            continue;
        };
        let lines = String::from_utf8(run.stdout).expect("hexadecimal digits");
        for ((len, out_len), line) in lengths().zip(lines.lines()) {
            let out = hash.of(&input(len), out_len);
            let hex: String = out.iter().map(|b| format!("{b:02x}")).collect();
            assert_eq!(hex, line, "the archive's {} of {len} bytes", hash.name);
            assert_eq!(shake(hash.rate, &input(len), out_len), out, "the plain program's {} of {len}", hash.name);
        }
        assert_eq!(lines.lines().count(), lengths().count());
        println!("{} beside hashlib: {} inputs agree", hash.name, lines.lines().count());
    }
}

#[test]
fn beside_openssl() {
    for hash in [SHAKE128, SHAKE256] {
        let Some(mut other) = Shake::load(hash.of_openssl) else {
            println!("{} beside OpenSSL: left out, OpenSSL 3 is not here", hash.name);
            continue;
        };
        for (len, out_len) in lengths() {
            let mut out = vec![0; out_len];
            other.hash(&input(len), &mut out);
            assert_eq!(hash.of(&input(len), out_len), out, "{} of {len} bytes", hash.name);
        }
        println!("{} beside OpenSSL: {} inputs agree", hash.name, lengths().count());
    }
}
