//! What the expensive inputs are made from: keys, signatures, rounds and packages that hold.

use peer::archive::{Category, CATEGORIES};
use peer::line::cases::{by_length, valid_under};
use peer::line::{write_line, Profile, LONGEST, NOMINAL_HERTZ, SHORTEST};
use peer::rng::Rng;
use peer::scheme::cases::Committed;
use peer::scheme::RoundCase;
use peer::sizes::Sizes;
use peer::table::cases::sound;
use peer::table::Table;

pub struct Signed {
    pub key: Vec<u8>,
    pub message: Vec<u8>,
    pub signature: Vec<u8>,
}

/// A package under the world's one key, with the profile that its line was made from and the table that it was made
/// under.
pub struct Package {
    pub table: Table,
    pub profile: Profile,
    pub bytes: Vec<u8>,
}

/// All of one category.
pub struct World {
    pub category: &'static Category,
    pub signed: Vec<Signed>,
    pub rounds: Vec<RoundCase>,
    pub key: Vec<u8>,
    pub packages: Vec<Package>,
}

pub type Worlds = [World; CATEGORIES.len()];

/// One for each category.
pub fn worlds(seed: u64) -> Worlds {
    let mut rng = Rng::new(seed);
    CATEGORIES.each_ref().map(|category| World::new(category, &mut rng))
}

/// Bytes of the messages that are signed: the ends, those of lines, and those about the end of the block
/// that the first challenges are hashed from. The first ones are short.
fn messages(s: &Sizes) -> [usize; 12] {
    let end = s.rate - (1 + s.digest + s.salt) % s.rate;
    [0, 0, 1, SHORTEST, 56, LONGEST, end - 1, end, end + 1, 1_000, 4_096, s.message]
}
pub const SHORT_MESSAGES: usize = 9;

fn make_key(category: &Category, private_seed: &[u8]) -> Vec<u8> {
    let mut key = vec![0; category.sizes.key()];
    assert_eq!((category.plain.make_key)(private_seed, &mut key), 0);
    key
}

fn sign(category: &Category, rng: &mut Rng, private_seed: &[u8], message: &[u8]) -> Vec<u8> {
    let s = &category.sizes;
    let (master, salt, mut signature) = (rng.bytes(s.round_seed), rng.bytes(s.salt), vec![0; s.signature()]);
    assert_eq!((category.plain.sign)(private_seed, &master, &salt, message, &mut signature), 0);
    signature
}

fn signed(category: &Category, rng: &mut Rng, message_len: usize) -> Signed {
    let (seed, message) = (rng.bytes(category.sizes.key_seed), rng.bytes(message_len));
    let signature = sign(category, rng, &seed, &message);
    Signed { key: make_key(category, &seed), message, signature }
}

/// Both replies of one round, under a first challenge each.
fn rounds(s: &Sizes, rng: &mut Rng) -> [RoundCase; 2] {
    let committed = Committed::draw(s, rng);
    [0, 1].map(|second| committed.case(s, 1 + rng.below(126) as u8, second))
}

/// Profiles of countries with a second letter from A to J, each at both hertz, every other country under a table of its
/// own; the last have the shortest and the longest line of a kind.
fn profiles(rng: &mut Rng) -> Vec<(Table, Profile)> {
    let drawn = (0..10).flat_map(|at| {
        let table = if at % 2 == 0 { Table::default() } else { sound(rng) };
        let country = [b'A' + rng.below(26) as u8, b'A' + rng.below(10) as u8];
        let profile = Profile { country, ..valid_under(rng, &table) };
        NOMINAL_HERTZ.map(|hertz| (table.clone(), Profile { hertz, serial: 2 + rng.below(1_000) as u32, ..profile }))
    });
    let ends = [false, true].map(by_length).map(|all| [all[0], all[all.len() - 1]]);
    drawn.chain(ends.concat().into_iter().map(|profile| (Table::default(), profile))).collect()
}

/// A profile's line, signed. Every sixth breaks a rule, in turns by a comma and by the tag of the other kind: a signer
/// may sign anything.
fn package(category: &Category, rng: &mut Rng, seed: &[u8], one: (usize, (Table, Profile))) -> Package {
    let (at, (table, profile)) = one;
    let mut line = write_line(&table, &profile).expect("valid");
    match at % 12 {
        0 => line[3] = b';',
        6 => line[2] ^= b'1' ^ b'2',
        _ => (),
    }
    let bytes = [sign(category, rng, seed, &line), line].concat();
    Package { table, profile, bytes }
}

impl World {
    fn new(category: &'static Category, rng: &mut Rng) -> World {
        let s = &category.sizes;
        let seed = rng.bytes(s.key_seed);
        World {
            category,
            key: make_key(category, &seed),
            packages: profiles(rng).into_iter().enumerate().map(|one| package(category, rng, &seed, one)).collect(),
            signed: messages(s).iter().map(|&len| signed(category, rng, len)).collect(),
            rounds: (0..8).flat_map(|_| rounds(s, rng)).collect(),
        }
    }
}
