//! Key making, signing, checking and the round examiner, at any sizes.

use crate::bits::{unpack, EXPONENT, VALUE};
use crate::draws::{sample, shuffle, EXPONENTS, FIRST_CHALLENGES, VALUES};
use crate::refusal::{answer, demand, Refusal, BAD_FIELD, BAD_SIZE, MISMATCH};
use crate::sizes::Sizes;
use crate::strings;
use crate::vectors::{less_times, powers, response, scaled, syndrome, transformation};

/// What a private seed stands for.
pub struct SecretKey {
    pub public_seed: Vec<u8>,
    pub matrix: Vec<u8>,
    pub exponents: Vec<u8>,
}

fn draw_matrix(s: &Sizes, public_seed: &[u8]) -> Result<Vec<u8>, Refusal> {
    sample(VALUES, &s.bytes_from(&strings::matrix(public_seed), s.matrix_block), s.matrix())
}

fn draw_exponents(s: &Sizes, string: &[u8]) -> Result<Vec<u8>, Refusal> {
    sample(EXPONENTS, &s.bytes_from(string, s.exponents_block), s.n)
}

fn draw_first_challenges(s: &Sizes, c: &[u8], salt: &[u8], message: &[u8]) -> Result<Vec<u8>, Refusal> {
    let string = strings::first_challenges(c, salt, message);
    sample(FIRST_CHALLENGES, &s.bytes_from(&string, s.first_challenges_block), s.t)
}

fn draw_second_challenge(
    s: &Sizes,
    c: &[u8],
    first: &[u8],
    h: &[u8],
    salt: &[u8],
    message: &[u8],
) -> Result<Vec<u8>, Refusal> {
    let string = strings::second_challenge(c, first, h, salt, message);
    shuffle(&s.bytes_from(&string, s.second_challenge_block), s.t, s.w)
}

pub fn secret_key(s: &Sizes, private_seed: &[u8]) -> Result<SecretKey, Refusal> {
    let seeds = s.bytes_from(&strings::key_seeds(private_seed), 2 * s.key_seed);
    let (secret_seed, public_seed) = seeds.split_at(s.key_seed);
    let matrix = draw_matrix(s, public_seed)?;
    let exponents = draw_exponents(s, &strings::key_exponents(secret_seed))?;
    Ok(SecretKey { public_seed: public_seed.to_vec(), matrix, exponents })
}

/// Makes the public key: public seed, then the packed syndrome.
pub fn make_key(s: &Sizes, private_seed: &[u8], key: &mut [u8]) -> u8 {
    let make = || {
        demand(private_seed.len() == s.key_seed && key.len() == s.key(), BAD_SIZE)?;
        let secret = secret_key(s, private_seed)?;
        let syndrome = syndrome(s.k, &secret.matrix, &powers(&secret.exponents));
        Ok([secret.public_seed, strings::packed_values(&syndrome)].concat())
    };
    answer(make(), key)
}

/// The two parts of a round's mask, drawn from the round's seed.
pub(crate) struct Mask {
    pub(crate) exponents: Vec<u8>,
    pub(crate) values: Vec<u8>,
}

fn draw_mask(s: &Sizes, seed: &[u8], salt: &[u8], round: usize) -> Result<Mask, Refusal> {
    let exponents = draw_exponents(s, &strings::mask_exponents(seed, salt, round))?;
    let block = s.bytes_from(&strings::mask_values(seed, salt, round), s.mask_values_block);
    let values = sample(VALUES, &block, s.n)?;
    Ok(Mask { exponents, values })
}

/// A round as the signer makes it, before the challenges.
pub(crate) struct Round {
    seed: Vec<u8>,
    pub(crate) mask: Mask,
    pub(crate) transformation: Vec<u8>,
    commitment_0: Vec<u8>,
    commitment_1: Vec<u8>,
}

fn commit(s: &Sizes, secret: &SecretKey, seed: &[u8], salt: &[u8], round: usize) -> Result<Round, Refusal> {
    let mask = draw_mask(s, seed, salt, round)?;
    let transformation = transformation(&secret.exponents, &mask.exponents);
    let syndrome = syndrome(s.k, &secret.matrix, &scaled(&transformation, &mask.values));
    let commitment_0 = s.digest_of(&strings::commitment_0(&syndrome, &transformation, salt, round));
    let commitment_1 = s.digest_of(&strings::commitment_1(&mask.values, &mask.exponents, salt, round));
    Ok(Round { seed: seed.to_vec(), mask, transformation, commitment_0, commitment_1 })
}

/// c, from every c0(i) and every c1(i).
fn joint_commitment(s: &Sizes, all_0: &[u8], all_1: &[u8]) -> Vec<u8> {
    let c0 = s.digest_of(&strings::all_commitments_0(all_0));
    let c1 = s.digest_of(&strings::all_commitments_1(all_1));
    s.digest_of(&strings::commitments(&c0, &c1))
}

/// Signs a message. The signature: salt, c, h, then a part for each round.
pub fn sign(
    s: &Sizes,
    private_seed: &[u8],
    master_seed: &[u8],
    salt: &[u8],
    message: &[u8],
    signature: &mut [u8],
) -> u8 {
    let sized = private_seed.len() == s.key_seed
        && master_seed.len() == s.round_seed
        && salt.len() == s.salt
        && message.len() <= s.message
        && signature.len() == s.signature();
    let made = demand(sized, BAD_SIZE).and_then(|()| signed(s, private_seed, master_seed, salt, message));
    answer(made, signature)
}

fn signed(s: &Sizes, private_seed: &[u8], master_seed: &[u8], salt: &[u8], message: &[u8]) -> Result<Vec<u8>, Refusal> {
    let rounds = committed(s, &secret_key(s, private_seed)?, master_seed, salt)?;
    answered(s, &rounds, salt, message, &rounds_commitment(s, &rounds), None)
}

/// Every round before the challenges.
pub(crate) fn committed(s: &Sizes, secret: &SecretKey, master_seed: &[u8], salt: &[u8]) -> Result<Vec<Round>, Refusal> {
    let seeds = s.bytes_from(&strings::round_seeds(master_seed, salt), s.t * s.round_seed);
    let seed = |i: usize| &seeds[(i - 1) * s.round_seed..i * s.round_seed];
    (1..=s.t).map(|i| commit(s, secret, seed(i), salt, i)).collect()
}

fn rounds_commitment(s: &Sizes, rounds: &[Round]) -> Vec<u8> {
    let all = |part: fn(&Round) -> &Vec<u8>| rounds.iter().flat_map(|r| part(r).clone()).collect::<Vec<u8>>();
    joint_commitment(s, &all(|r| &r.commitment_0), &all(|r| &r.commitment_1))
}

/// The signature with this c. An honest signer has h from its responses; `h` is what a forger claims.
fn answered(
    s: &Sizes,
    rounds: &[Round],
    salt: &[u8],
    message: &[u8],
    c: &[u8],
    h: Option<&[u8]>,
) -> Result<Vec<u8>, Refusal> {
    let first = draw_first_challenges(s, c, salt, message)?;
    let respond = |(round, &beta): (&Round, &u8)| response(beta, &round.mask.values, &round.mask.exponents);
    let responses: Vec<Vec<u8>> = rounds.iter().zip(&first).map(respond).collect();
    let digests: Vec<u8> = responses.iter().flat_map(|y| s.digest_of(&strings::response(y))).collect();
    let h = h.map_or_else(|| s.digest_of(&strings::all_responses(&digests)), <[u8]>::to_vec);
    let second = draw_second_challenge(s, c, &first, &h, salt, message)?;

    let mut signature = [salt, c, &h].concat();
    for ((round, y), &challenge) in rounds.iter().zip(&responses).zip(&second) {
        signature.extend(if challenge == 1 {
            [&round.seed[..], &round.commitment_0].concat()
        } else {
            [&strings::packed_values(y)[..], &strings::packed_exponents(&round.transformation), &round.commitment_1]
                .concat()
        });
    }
    Ok(signature)
}

/// A public key, unpacked.
struct PublicKey {
    matrix: Vec<u8>,
    syndrome: Vec<u8>,
}

/// What a reply to one challenge opens: the matching commitment, and h(i).
struct Opened {
    commitment: Vec<u8>,
    response: Vec<u8>,
}

/// A round under its two challenges.
struct Challenged<'a> {
    salt: &'a [u8],
    round: usize,
    first: u8,
    second: u8,
}

fn open(s: &Sizes, key: &PublicKey, at: &Challenged, reply: &[u8]) -> Result<Opened, Refusal> {
    let (y, string) = if at.second == 1 {
        let mask = draw_mask(s, reply, at.salt, at.round)?;
        let y = response(at.first, &mask.values, &mask.exponents);
        (y, strings::commitment_1(&mask.values, &mask.exponents, at.salt, at.round))
    } else {
        let (y, transformation) = reply.split_at(s.packed_values());
        let y = unpack(VALUE, y, s.n)?;
        let transformation = unpack(EXPONENT, transformation, s.n)?;
        let moved = syndrome(s.k, &key.matrix, &scaled(&transformation, &y));
        let commitment = less_times(at.first, &moved, &key.syndrome);
        (y, strings::commitment_0(&commitment, &transformation, at.salt, at.round))
    };
    Ok(Opened { commitment: s.digest_of(&string), response: s.digest_of(&strings::response(&y)) })
}

/// A signature's salt, c and h, and the parts of its rounds.
struct Cut<'a> {
    salt: &'a [u8],
    c: &'a [u8],
    h: &'a [u8],
    rest: &'a [u8],
}

fn cut<'a>(s: &Sizes, signature: &'a [u8]) -> Cut<'a> {
    let (salt, rest) = signature.split_at(s.salt);
    let (c, rest) = rest.split_at(s.digest);
    let (h, rest) = rest.split_at(s.digest);
    Cut { salt, c, h, rest }
}

/// The first and the second challenges that a signature of the right size draws.
pub fn challenges(s: &Sizes, message: &[u8], signature: &[u8]) -> Result<(Vec<u8>, Vec<u8>), Refusal> {
    let Cut { salt, c, h, .. } = cut(s, signature);
    let first = draw_first_challenges(s, c, salt, message)?;
    let second = draw_second_challenge(s, c, &first, h, salt, message)?;
    Ok((first, second))
}

/// Checks a signature: 1, key fields (3), V (2), first challenges (2), second challenge (2), rounds
/// upward (3 or 2), then 4.
pub fn verify(s: &Sizes, key: &[u8], message: &[u8], signature: &[u8]) -> u8 {
    verified(s, key, message, signature).err().unwrap_or(0)
}

fn verified(s: &Sizes, key: &[u8], message: &[u8], signature: &[u8]) -> Result<(), Refusal> {
    let sized = key.len() == s.key() && message.len() <= s.message && signature.len() == s.signature();
    demand(sized, BAD_SIZE)?;
    let (public_seed, packed) = key.split_at(s.key_seed);
    let syndrome = unpack(VALUE, packed, s.rows())?;
    let key = PublicKey { matrix: draw_matrix(s, public_seed)?, syndrome };
    let Cut { salt, c, h, mut rest } = cut(s, signature);
    let (first, second) = challenges(s, message, signature)?;

    let (mut all_0, mut all_1, mut digests) = (Vec::new(), Vec::new(), Vec::new());
    for i in 1..=s.t {
        let at = Challenged { salt, round: i, first: first[i - 1], second: second[i - 1] };
        let (part, later) = rest.split_at(s.part(at.second));
        let (reply, other) = part.split_at(s.reply(at.second));
        rest = later;
        let opened = open(s, &key, &at, reply)?;
        let (zero, one) =
            if at.second == 1 { (other, &opened.commitment[..]) } else { (&opened.commitment[..], other) };
        all_0.extend_from_slice(zero);
        all_1.extend_from_slice(one);
        digests.extend(opened.response);
    }
    demand(joint_commitment(s, &all_0, &all_1) == c, MISMATCH)?;
    demand(s.digest_of(&strings::all_responses(&digests)) == h, MISMATCH)
}

/// What the round examiner is given.
#[derive(Clone, Debug, PartialEq)]
pub struct RoundCase {
    pub key: Vec<u8>,
    pub salt: Vec<u8>,
    pub round: u32,
    pub commitment_0: Vec<u8>,
    pub commitment_1: Vec<u8>,
    pub first_challenge: u32,
    pub response: Vec<u8>,
    pub second_challenge: u32,
    pub reply: Vec<u8>,
}

/// Examines one round: 1, key fields (3), i, β and challenge (3), V (2), the reply (3 or 2), then 4.
pub fn verify_round(s: &Sizes, case: &RoundCase) -> u8 {
    round_verified(s, case).err().unwrap_or(0)
}

fn round_verified(s: &Sizes, case: &RoundCase) -> Result<(), Refusal> {
    let digests = [&case.commitment_0, &case.commitment_1, &case.response];
    let known = case.second_challenge <= 1;
    let sized = case.key.len() == s.key()
        && case.salt.len() == s.salt
        && digests.iter().all(|d| d.len() == s.digest)
        && (!known || case.reply.len() == s.reply(case.second_challenge as u8));
    demand(sized, BAD_SIZE)?;
    let (public_seed, packed) = case.key.split_at(s.key_seed);
    let syndrome = unpack(VALUE, packed, s.rows())?;
    demand((1..=s.t as u32).contains(&case.round), BAD_FIELD)?;
    demand((1..=126).contains(&case.first_challenge), BAD_FIELD)?;
    demand(known, BAD_FIELD)?;
    let key = PublicKey { matrix: draw_matrix(s, public_seed)?, syndrome };
    let (first, second) = (case.first_challenge as u8, case.second_challenge as u8);
    let at = Challenged { salt: &case.salt, round: case.round as usize, first, second };
    let opened = open(s, &key, &at, &case.reply)?;
    let commitment = if second == 1 { &case.commitment_1 } else { &case.commitment_0 };
    demand(opened.commitment == *commitment, MISMATCH)?;
    demand(opened.response == case.response, MISMATCH)
}

pub mod cases;
pub mod forge;
#[cfg(test)]
mod tests;
