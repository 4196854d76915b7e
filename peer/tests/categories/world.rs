//! A key, a signature, two replies and a package of each category.

use peer::archive::{Category, CATEGORIES};
use peer::rng::Rng;
use peer::scheme::cases::Committed;
use peer::scheme::RoundCase;
use peer::sizes::Sizes;
use peer::store::package_lengths;

/// The message that is signed at each category.
pub const LINE: &[u8] = b"GP1,XA,B,12,230,50,1150,100,800,1500,1500,100,-2500,100\n";

pub struct World {
    pub category: Category,
    /// Private seed, master seed, salt.
    pub seeds: [Vec<u8>; 3],
    pub key: Vec<u8>,
    pub signature: Vec<u8>,
    /// Honest replies to second challenges 0 and 1.
    pub rounds: [RoundCase; 2],
}

impl World {
    fn new(category: Category) -> World {
        let (s, mut rng) = (category.sizes, Rng::new(0x6361_7465));
        let seeds = [s.key_seed, s.round_seed, s.salt].map(|len| rng.bytes(len));
        let (mut key, mut signature) = (vec![0; s.key()], vec![0; s.signature()]);
        assert_eq!((category.plain.make_key)(&seeds[0], &mut key), 0);
        assert_eq!((category.plain.sign)(&seeds[0], &seeds[1], &seeds[2], LINE, &mut signature), 0);
        let rounds = [0, 1].map(|second| Committed::draw(&s, &mut rng).case(&s, 9, second));
        World { category, seeds, key, signature, rounds }
    }

    pub fn package(&self) -> Vec<u8> {
        [&self.signature, LINE].concat()
    }

    /// The bytes that making a package wants.
    pub fn room(&self) -> usize {
        *package_lengths(&self.category.sizes).end()
    }
}

/// Does something for every ordered pair of different categories.
pub fn each_pair(mut compare: impl FnMut(&World, &World)) {
    let worlds = CATEGORIES.map(World::new);
    for own in &worlds {
        for other in worlds.iter().filter(|other| other.category.number != own.category.number) {
            compare(own, other);
        }
    }
}

/// Every length that a category has, each once.
pub fn lengths(s: &Sizes) -> Vec<usize> {
    let blocks =
        [s.matrix_block, s.exponents_block, s.mask_values_block, s.first_challenges_block, s.second_challenge_block];
    let numbers = [s.matrix(), s.n, s.t];
    let scheme = [s.key_seed, s.round_seed, s.salt, s.digest, s.key(), s.signature()];
    let replies = [0, 1].into_iter().flat_map(|challenge| [s.reply(challenge), s.part(challenge)]);
    let (shortest, longest) = package_lengths(s).into_inner();
    let packages = [shortest - 1, shortest, s.signature() + 72, s.signature() + 73, longest, longest + 1];
    let mut all: Vec<usize> = blocks.into_iter().chain(numbers).chain(scheme).chain(replies).chain(packages).collect();
    all.sort();
    all.dedup();
    all
}

/// The bytes in another length: cut, or with zeros behind them.
pub fn resized(bytes: &[u8], len: usize) -> Vec<u8> {
    let mut out = bytes.to_vec();
    out.resize(len, 0);
    out
}

/// A comparison of `own` on what `other` has is called so.
pub fn name(entry: &str, own: &World, other: &World) -> String {
    own.category.named(&format!("{entry} on sizes of category {}", other.category.number))
}
