//! Inputs for every entry, honest and spoilt, with the answers of this program: printed, they are
//! what another program, or a definition in a proof, is held to.

use super::*;
use crate::rng::Rng;
use std::fmt::Write;

/// One signing with everything that went into it.
pub struct Signed {
    pub private_seed: Vec<u8>,
    pub master_seed: Vec<u8>,
    pub salt: Vec<u8>,
    pub message: Vec<u8>,
    pub key: Vec<u8>,
    pub signature: Vec<u8>,
}

/// Answers of key making and signing on random seeds, and what was made.
pub fn attempt(s: &Sizes, rng: &mut Rng, message_len: usize) -> (u8, u8, Signed) {
    let mut made = Signed {
        private_seed: rng.bytes(s.key_seed),
        master_seed: rng.bytes(s.round_seed),
        salt: rng.bytes(s.salt),
        message: rng.bytes(message_len),
        key: vec![0; s.key()],
        signature: vec![0; s.signature()],
    };
    let key_answer = make_key(s, &made.private_seed, &mut made.key);
    let sign_answer = sign(s, &made.private_seed, &made.master_seed, &made.salt, &made.message, &mut made.signature);
    (key_answer, sign_answer, made)
}

/// One round after its commitments, of a key and a seed for which no draw is short.
pub struct Committed {
    pub key: Vec<u8>,
    pub salt: Vec<u8>,
    pub matrix: Vec<u8>,
    pub(super) round: Round,
    pub index: usize,
}

impl Committed {
    pub fn draw(s: &Sizes, rng: &mut Rng) -> Committed {
        loop {
            let (salt, seed, index) = (rng.bytes(s.salt), rng.bytes(s.round_seed), 1 + rng.below(s.t));
            let (mut key, private_seed) = (vec![0; s.key()], rng.bytes(s.key_seed));
            let Ok(secret) = secret_key(s, &private_seed) else { continue };
            let Ok(round) = commit(s, &secret, &seed, &salt, index) else { continue };
            assert_eq!(make_key(s, &private_seed, &mut key), 0);
            return Committed { key, salt, matrix: secret.matrix, round, index };
        }
    }

    /// The honest reply to both challenges.
    pub fn case(&self, s: &Sizes, first: u8, second: u32) -> RoundCase {
        let y = response(first, &self.round.mask.values, &self.round.mask.exponents);
        let reply = if second == 1 {
            self.round.seed.clone()
        } else {
            [strings::packed_values(&y), strings::packed_exponents(&self.round.transformation)].concat()
        };
        RoundCase {
            key: self.key.clone(),
            salt: self.salt.clone(),
            round: self.index as u32,
            commitment_0: self.round.commitment_0.clone(),
            commitment_1: self.round.commitment_1.clone(),
            first_challenge: u32::from(first),
            response: s.digest_of(&strings::response(&y)),
            second_challenge: second,
            reply,
        }
    }
}

/// One fault in the examiner's input.
pub type Spoil = fn(&mut RoundCase);

/// Faults of the examiner's input, each with its refusal, in the order in which they are looked at.
const FAULTS: [(u8, Spoil); 15] = [
    (1, |c| c.key.push(0)),
    (1, |c| c.salt.truncate(1)),
    (1, |c| c.commitment_0.clear()),
    (1, |c| c.commitment_1.push(0)),
    (1, |c| c.response.push(0)),
    (1, |c| c.reply.push(0)),
    (3, |c| *c.key.last_mut().unwrap() |= 0x80),
    (3, |c| c.round = 0),
    (3, |c| c.round = 60_000),
    (3, |c| c.first_challenge = 0),
    (3, |c| c.first_challenge = 127),
    (3, |c| match c.second_challenge {
        0 => c.reply[0] |= 0x7F,
        _ => c.first_challenge = u32::MAX,
    }),
    (4, |c| c.response[0] ^= 1),
    (4, |c| c.commitment_0[0] ^= 1),
    (4, |c| c.commitment_1[0] ^= 1),
];

/// An honest case with each fault alone and with each two of them, and the answer that is due. The
/// commitment that the reply does not open is not looked at.
pub fn faulty_rounds(honest: &RoundCase) -> Vec<(RoundCase, u8)> {
    let unopened = if honest.second_challenge == 1 { 13 } else { 14 };
    let faults: Vec<&(u8, Spoil)> = FAULTS.iter().enumerate().filter(|(at, _)| *at != unopened).map(|x| x.1).collect();
    let mut cases = Vec::new();
    for (at, (refusal, spoil)) in faults.iter().enumerate() {
        let mut one = honest.clone();
        spoil(&mut one);
        cases.push((one, *refusal));
        for (_, later) in &faults[at + 1..] {
            let mut two = honest.clone();
            later(&mut two);
            spoil(&mut two);
            cases.push((two, *refusal));
        }
    }
    cases
}

pub fn flipped(bytes: &[u8], bit: usize) -> Vec<u8> {
    let mut out = bytes.to_vec();
    out[bit / 8] ^= 1 << (bit % 8);
    out
}

/// Hexadecimal digits, or `-` for the empty string.
fn hex(bytes: &[u8]) -> String {
    let digits: String = bytes.iter().map(|byte| format!("{byte:02x}")).collect();
    if digits.is_empty() {
        "-".to_string()
    } else {
        digits
    }
}

/// A string that is now and then a byte too long or too short.
fn missized(rng: &mut Rng, bytes: &[u8]) -> Vec<u8> {
    let mut out = bytes.to_vec();
    match rng.below(24) {
        0 => out.push(0),
        1 => out.truncate(bytes.len().saturating_sub(1)),
        _ => (),
    }
    out
}

/// A string with, now and then, one bit flipped, all bits of one byte set, or other bytes throughout.
pub fn spoilt(rng: &mut Rng, bytes: &[u8]) -> Vec<u8> {
    let mut out = bytes.to_vec();
    match rng.below(5) {
        0 if !out.is_empty() => out = flipped(bytes, rng.below(8 * bytes.len())),
        1 if !out.is_empty() => out[rng.below(bytes.len())] = 0xFF,
        2 => rng.fill(&mut out),
        _ => (),
    }
    missized(rng, &out)
}

fn key_line(s: &Sizes, rng: &mut Rng) -> String {
    let (drawn, lent) = (rng.bytes(s.key_seed), vec![0; s.key()]);
    let (private_seed, mut key) = (missized(rng, &drawn), missized(rng, &lent));
    let (lent, answer) = (key.len(), make_key(s, &private_seed, &mut key));
    format!("make_key {} {lent} {answer} {}", hex(&private_seed), hex(&key))
}

fn sign_line(s: &Sizes, rng: &mut Rng) -> String {
    let message_len = rng.below(6);
    let (_, _, made) = attempt(s, rng, message_len);
    let strings = [&made.private_seed, &made.master_seed, &made.salt].map(|bytes| missized(rng, bytes));
    let mut out = missized(rng, &vec![0; s.signature()]);
    let (lent, [private_seed, master_seed, salt]) = (out.len(), &strings);
    let answer = sign(s, private_seed, master_seed, salt, &made.message, &mut out);
    let shown = [private_seed, master_seed, salt, &made.message].map(|bytes| hex(bytes)).join(" ");
    format!("sign {shown} {lent} {answer} {}", hex(&out))
}

/// Half of the signatures are honest; spoilt or not, most others have an honest salt, c and h.
fn verify_line(s: &Sizes, rng: &mut Rng) -> String {
    let made = loop {
        let message_len = rng.below(6);
        let (_, answer, made) = attempt(s, rng, message_len);
        if answer == 0 || rng.below(8) == 0 {
            break made;
        }
    };
    let (mut key, mut signature) = (made.key, made.signature);
    if rng.below(3) > 0 {
        (key, signature) = (spoilt(rng, &key), spoilt(rng, &signature));
    }
    let answer = verify(s, &key, &made.message, &signature);
    format!("verify {} {} {} {answer}", hex(&key), hex(&made.message), hex(&signature))
}

/// An honest reply, or one with some faults.
pub fn round_case(s: &Sizes, rng: &mut Rng) -> RoundCase {
    let first = 1 + rng.below(126) as u8;
    let second = rng.below(2) as u32;
    let mut c = Committed::draw(s, rng).case(s, first, second);
    if rng.below(3) > 0 {
        for part in [&mut c.key, &mut c.salt, &mut c.commitment_0, &mut c.commitment_1, &mut c.response, &mut c.reply] {
            if rng.below(3) == 0 {
                *part = spoilt(rng, part);
            }
        }
        match rng.below(16) {
            0 => c.round = [0, s.t as u32 + 1, 65536 + c.round][rng.below(3)],
            1 => c.first_challenge = [0, 127, 256 + c.first_challenge][rng.below(3)],
            2 => c.second_challenge = [2, 256][rng.below(2)],
            3 => c.second_challenge = 1 - c.second_challenge,
            4..=6 => rng.fill(&mut c.reply),
            7 => rng.fill(&mut c.key),
            _ => (),
        }
    }
    c
}

fn round_line(s: &Sizes, rng: &mut Rng) -> String {
    let c = round_case(s, rng);
    let answer = verify_round(s, &c);
    let (commitments, numbers) = (hex(&c.commitment_0) + " " + &hex(&c.commitment_1), c.second_challenge);
    let head = format!("verify_round {} {} {} {commitments}", hex(&c.key), hex(&c.salt), c.round);
    format!("{head} {} {} {numbers} {} {answer}", c.first_challenge, hex(&c.response), hex(&c.reply))
}

/// The sizes on one line, then `count` lines for each entry: its arguments, its answer, and the
/// bytes lent as they are in the end.
pub fn listing(s: &Sizes, count: usize) -> String {
    let mut rng = Rng::new(0x6361_7365);
    let blocks =
        [s.matrix_block, s.exponents_block, s.mask_values_block, s.first_challenges_block, s.second_challenge_block];
    let numbers = [s.n, s.k, s.t, s.w, s.digest, s.round_seed, s.rate].into_iter().chain(blocks);
    let mut out = "sizes".to_string();
    numbers.for_each(|number| write!(out, " {number}").expect("a string takes all"));
    for line in [key_line, sign_line, verify_line, round_line] {
        for _ in 0..count {
            out += "\n";
            out += &line(s, &mut rng);
        }
    }
    out + "\n"
}

#[cfg(test)]
mod tests {
    use super::*;
    use crate::sizes::TINIES;

    /// The count that the gate asks for reaches every answer of every entry.
    #[test]
    fn every_answer_is_listed() {
        let all = TINIES.map(|s| listing(&s, 50)).concat();
        let answered = |entry: &str, place: usize, answer: &str| {
            let words = all.lines().map(|line| line.split(' ').collect::<Vec<&str>>());
            let mut of_entry = words.filter(|words| words[0] == entry);
            of_entry.any(|words| words[words.len() - place] == answer)
        };
        for answer in ["0", "1", "2"] {
            assert!(answered("make_key", 2, answer) && answered("sign", 2, answer), "{answer}");
        }
        for answer in ["0", "1", "2", "3", "4"] {
            assert!(answered("verify", 1, answer) && answered("verify_round", 1, answer), "{answer}");
        }
    }
}
