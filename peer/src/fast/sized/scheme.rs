//! Key making, signing and checking over arrays, with no string joined in a buffer.

use super::vectors::{
    less_times, powers, response, scaled, syndrome, transformation, Syndrome, Vector, MATRIX, N, ROWS,
};
use super::S;
use crate::fast::draws::{draw, shuffle};
use crate::fast::keccak::{shake, Sponge};
use crate::fast::packing::{lay, read};
use crate::refusal::{demand, Refusal, BAD_FIELD, BAD_SIZE, MISMATCH, SHORT_DRAW};

const T: usize = S.t;
const SEED: usize = S.round_seed;
const KEY_SEED: usize = S.key_seed;
const KEY: usize = S.key();
const SIGNATURE: usize = S.signature();
const DIGEST: usize = S.digest;
const VALUES: usize = S.packed_values();
const EXPONENTS: usize = S.packed_exponents();
const SYNDROME: usize = S.packed_syndrome();
const FIRST: usize = S.packed_challenges();

type Hash = Sponge<{ S.rate }>;
type Digest = [u8; DIGEST];

fn hash<const LEN: usize>(parts: &[&[u8]]) -> [u8; LEN] {
    let mut out = [0; LEN];
    shake::<{ S.rate }>(parts, &mut out);
    out
}

fn packed<const WIDTH: u32, const LEN: usize>(numbers: &[u8]) -> [u8; LEN] {
    let mut out = [0; LEN];
    lay::<WIDTH>(numbers, &mut out);
    out
}

fn draw_matrix(public_seed: &[u8]) -> Result<[u8; MATRIX], Refusal> {
    let mut out = [0; MATRIX];
    let block: [u8; S.matrix_block] = hash(&[&[13], public_seed]);
    demand(draw::<7>(&block, 127, 0, &mut out), SHORT_DRAW)?;
    Ok(out)
}

fn draw_exponents(parts: &[&[u8]]) -> Result<Vector, Refusal> {
    let mut out = [0; N];
    let block: [u8; S.exponents_block] = hash(parts);
    demand(draw::<3>(&block, 7, 0, &mut out), SHORT_DRAW)?;
    Ok(out)
}

fn draw_mask(seed: &[u8], salt: &[u8], round: [u8; 2]) -> Result<(Vector, Vector), Refusal> {
    let exponents = draw_exponents(&[&[10], seed, salt, &round])?;
    let mut values = [0; N];
    let block: [u8; S.mask_values_block] = hash(&[&[11], seed, salt, &round]);
    demand(draw::<7>(&block, 127, 0, &mut values), SHORT_DRAW)?;
    Ok((exponents, values))
}

fn draw_first(c: &Digest, salt: &[u8], message: &[u8]) -> Result<[u8; T], Refusal> {
    let mut out = [0; T];
    let block: [u8; S.first_challenges_block] = hash(&[&[7], c, salt, message]);
    demand(draw::<7>(&block, 126, 1, &mut out), SHORT_DRAW)?;
    Ok(out)
}

fn draw_second(c: &Digest, first: &[u8; T], h: &Digest, salt: &[u8], message: &[u8]) -> Result<[u8; T], Refusal> {
    let mut out = [0; T];
    let block: [u8; S.second_challenge_block] = hash(&[&[8], c, &packed::<7, FIRST>(first), h, salt, message]);
    demand(shuffle(&block, S.w, &mut out), SHORT_DRAW)?;
    Ok(out)
}

struct Secret {
    public_seed: [u8; KEY_SEED],
    matrix: [u8; MATRIX],
    exponents: Vector,
}

fn secret_key(private_seed: &[u8]) -> Result<Secret, Refusal> {
    let seeds: [u8; 2 * KEY_SEED] = hash(&[&[12], private_seed]);
    let matrix = draw_matrix(&seeds[KEY_SEED..])?;
    let exponents = draw_exponents(&[&[10], &seeds[..KEY_SEED]])?;
    Ok(Secret { public_seed: seeds[KEY_SEED..].try_into().unwrap(), matrix, exponents })
}

pub fn make_key(private_seed: &[u8], key: &mut [u8]) -> u8 {
    let make = |key: &mut [u8]| {
        demand(private_seed.len() == KEY_SEED && key.len() == KEY, BAD_SIZE)?;
        let secret = secret_key(private_seed)?;
        key[..KEY_SEED].copy_from_slice(&secret.public_seed);
        lay::<7>(&syndrome(&secret.matrix, &powers(&secret.exponents)), &mut key[KEY_SEED..]);
        Ok(())
    };
    make(key).err().unwrap_or(0)
}

fn round_bytes(at: usize) -> [u8; 2] {
    (at as u16 + 1).to_le_bytes()
}

fn commitment_0(syndrome: &Syndrome, sigma: &Vector, salt: &[u8], round: [u8; 2]) -> Digest {
    hash(&[&[0], &packed::<7, SYNDROME>(syndrome), &packed::<3, EXPONENTS>(sigma), salt, &round])
}

fn commitment_1(values: &Vector, exponents: &Vector, salt: &[u8], round: [u8; 2]) -> Digest {
    hash(&[&[1], &packed::<7, VALUES>(values), &packed::<3, EXPONENTS>(exponents), salt, &round])
}

/// The three running digests: over every c0(i), c1(i) and h(i).
struct Running {
    commitments_0: Hash,
    commitments_1: Hash,
    responses: Hash,
}

impl Running {
    fn new() -> Running {
        let start = |tag: u8| {
            let mut sponge = Hash::new();
            sponge.absorb(&[tag]);
            sponge
        };
        Running { commitments_0: start(3), commitments_1: start(4), responses: start(6) }
    }

    fn finish(sponge: Hash) -> Digest {
        let mut out = [0; DIGEST];
        sponge.finish(&mut out);
        out
    }

    /// c and h.
    fn ends(self) -> (Digest, Digest) {
        let (c0, c1) = (Self::finish(self.commitments_0), Self::finish(self.commitments_1));
        (hash(&[&[5], &c0, &c1]), Self::finish(self.responses))
    }
}

/// What the signer keeps of its rounds.
struct Rounds {
    seeds: [u8; T * SEED],
    mask_exponents: [Vector; T],
    mask_values: [Vector; T],
    commitments_0: [Digest; T],
    commitments_1: [Digest; T],
}

fn commit(secret: &Secret, master_seed: &[u8], salt: &[u8]) -> Result<Box<Rounds>, Refusal> {
    let mut r = Box::new(Rounds {
        seeds: hash(&[&[9], master_seed, salt]),
        mask_exponents: [[0; N]; T],
        mask_values: [[0; N]; T],
        commitments_0: [[0; DIGEST]; T],
        commitments_1: [[0; DIGEST]; T],
    });
    for i in 0..T {
        let round = round_bytes(i);
        let (exponents, values) = draw_mask(&r.seeds[i * SEED..(i + 1) * SEED], salt, round)?;
        let sigma = transformation(&secret.exponents, &exponents);
        let moved = syndrome(&secret.matrix, &scaled(&sigma, &values));
        r.commitments_0[i] = commitment_0(&moved, &sigma, salt, round);
        r.commitments_1[i] = commitment_1(&values, &exponents, salt, round);
        (r.mask_exponents[i], r.mask_values[i]) = (exponents, values);
    }
    Ok(r)
}

pub fn sign(private_seed: &[u8], master_seed: &[u8], salt: &[u8], message: &[u8], signature: &mut [u8]) -> u8 {
    signed(private_seed, master_seed, salt, message, signature).err().unwrap_or(0)
}

fn signed(private_seed: &[u8], master_seed: &[u8], salt: &[u8], message: &[u8], out: &mut [u8]) -> Result<(), Refusal> {
    demand(private_seed.len() == KEY_SEED && master_seed.len() == SEED && salt.len() == S.salt, BAD_SIZE)?;
    demand(message.len() <= S.message && out.len() == SIGNATURE, BAD_SIZE)?;
    let secret = secret_key(private_seed)?;
    let rounds = commit(&secret, master_seed, salt)?;
    let c0: Digest = hash(&[&[3], rounds.commitments_0.as_flattened()]);
    let c1: Digest = hash(&[&[4], rounds.commitments_1.as_flattened()]);
    let c: Digest = hash(&[&[5], &c0, &c1]);
    let first = draw_first(&c, salt, message)?;
    let mut responses = [[0; VALUES]; T];
    let mut all = Hash::new();
    all.absorb(&[6]);
    for i in 0..T {
        responses[i] = packed::<7, VALUES>(&response(first[i], &rounds.mask_values[i], &rounds.mask_exponents[i]));
        all.absorb(&hash::<DIGEST>(&[&[2], &responses[i]]));
    }
    let h = Running::finish(all);
    let second = draw_second(&c, &first, &h, salt, message)?;
    let mut rest = &mut *out;
    let mut write = |part: &[u8]| {
        let (head, tail) = std::mem::take(&mut rest).split_at_mut(part.len());
        head.copy_from_slice(part);
        rest = tail;
    };
    [salt, &c, &h].into_iter().for_each(&mut write);
    for i in 0..T {
        if second[i] == 1 {
            write(&rounds.seeds[i * SEED..(i + 1) * SEED]);
            write(&rounds.commitments_0[i]);
        } else {
            let sigma = transformation(&secret.exponents, &rounds.mask_exponents[i]);
            write(&responses[i]);
            write(&packed::<3, EXPONENTS>(&sigma));
            write(&rounds.commitments_1[i]);
        }
    }
    Ok(())
}

pub fn verify(key: &[u8], message: &[u8], signature: &[u8]) -> u8 {
    verified(key, message, signature).err().unwrap_or(0)
}

struct Public {
    matrix: [u8; MATRIX],
    syndrome: Syndrome,
}

fn verified(key: &[u8], message: &[u8], signature: &[u8]) -> Result<(), Refusal> {
    demand(key.len() == KEY && message.len() <= S.message && signature.len() == SIGNATURE, BAD_SIZE)?;
    let mut syndrome = [0; ROWS];
    demand(read::<7, 127>(&key[KEY_SEED..], &mut syndrome), BAD_FIELD)?;
    let public = Public { matrix: draw_matrix(&key[..KEY_SEED])?, syndrome };
    let (salt, rest) = signature.split_at(S.salt);
    let (c, rest) = rest.split_first_chunk::<DIGEST>().unwrap();
    let (h, mut rest) = rest.split_first_chunk::<DIGEST>().unwrap();
    let first = draw_first(c, salt, message)?;
    let second = draw_second(c, &first, h, salt, message)?;
    let mut running = Running::new();
    for i in 0..T {
        let (part, later) = rest.split_at(if second[i] == 1 { SEED + DIGEST } else { VALUES + EXPONENTS + DIGEST });
        rest = later;
        if second[i] == 1 {
            opened_1(part, salt, round_bytes(i), first[i], &mut running)?;
        } else {
            opened_0(&public, part, salt, round_bytes(i), first[i], &mut running)?;
        }
    }
    let (own_c, own_h) = running.ends();
    demand(own_c == *c && own_h == *h, MISMATCH)
}

fn opened_1(part: &[u8], salt: &[u8], round: [u8; 2], first: u8, running: &mut Running) -> Result<(), Refusal> {
    let (seed, other) = part.split_at(SEED);
    let (exponents, values) = draw_mask(seed, salt, round)?;
    let y = packed::<7, VALUES>(&response(first, &values, &exponents));
    running.commitments_0.absorb(other);
    running.commitments_1.absorb(&commitment_1(&values, &exponents, salt, round));
    running.responses.absorb(&hash::<DIGEST>(&[&[2], &y]));
    Ok(())
}

fn opened_0(
    key: &Public,
    part: &[u8],
    salt: &[u8],
    round: [u8; 2],
    first: u8,
    running: &mut Running,
) -> Result<(), Refusal> {
    let (reply, other) = part.split_at(VALUES + EXPONENTS);
    let (packed_y, packed_sigma) = reply.split_at(VALUES);
    let (mut y, mut sigma) = ([0; N], [0; N]);
    demand(read::<7, 127>(packed_y, &mut y) && read::<3, 7>(packed_sigma, &mut sigma), BAD_FIELD)?;
    let moved = less_times(first, &syndrome(&key.matrix, &scaled(&sigma, &y)), &key.syndrome);
    running.commitments_0.absorb(&hash::<DIGEST>(&[&[0], &packed::<7, SYNDROME>(&moved), packed_sigma, salt, &round]));
    running.commitments_1.absorb(other);
    running.responses.absorb(&hash::<DIGEST>(&[&[2], packed_y]));
    Ok(())
}

#[cfg(test)]
mod tests {
    use super::*;
    use crate::rng::Rng;
    use crate::scheme;
    use crate::sizes::CATEGORY_1;

    /// Fewer where each costs more.
    const TURNS: usize = 12 * CATEGORY_1.signature() / SIGNATURE;

    #[test]
    fn the_fast_scheme_is_the_scheme() {
        let mut rng = Rng::new(6);
        for turn in 0..TURNS {
            let (private_seed, master_seed, salt) = (rng.bytes(KEY_SEED), rng.bytes(SEED), rng.bytes(S.salt));
            let message = rng.bytes(turn * 50);
            let (mut key, mut own_key) = (vec![0; KEY], vec![0; KEY]);
            assert_eq!(scheme::make_key(&S, &private_seed, &mut key), make_key(&private_seed, &mut own_key));
            assert_eq!(key, own_key);
            let (mut signature, mut own) = (vec![0; SIGNATURE], vec![0; SIGNATURE]);
            assert_eq!(scheme::sign(&S, &private_seed, &master_seed, &salt, &message, &mut signature), 0);
            assert_eq!(sign(&private_seed, &master_seed, &salt, &message, &mut own), 0);
            assert!(signature == own);
            assert_eq!(verify(&key, &message, &signature), 0);
            for _ in 0..20 {
                let mut spoilt = signature.clone();
                spoilt[rng.below(SIGNATURE)] ^= 1 << rng.below(8);
                assert_eq!(verify(&key, &message, &spoilt), scheme::verify(&S, &key, &message, &spoilt));
            }
        }
    }
}
