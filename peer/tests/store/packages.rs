//! Making packages.

use crate::both::{Both, Sent};
use peer::archive::{Category, CATEGORIES};
use peer::harness::Tally;
use peer::line::cases::{some_rate, valid};
use peer::line::{read_line, write_line, Profile};
use peer::rng::Rng;
use peer::scheme;
use peer::store::{make_package, package_lengths, Device};
use peer::table::{BUILT_IN, BUILT_IN_IMAGE};

type Seeds = [Vec<u8>; 3];

fn compare(category: &Category, t: &mut Tally, seeds: &Seeds, line: &[u8], room: usize) -> u8 {
    let seeds = [&seeds[0][..], &seeds[1], &seeds[2]];
    let old = t.inputs().wrapping_mul(0x9E37_79B9);
    let shown = || format!("{seeds:02x?} {:?} into {room} bytes", String::from_utf8_lossy(line));
    let proved = |out: &mut [u8]| category.make_package(&BUILT_IN_IMAGE, seeds, line, out, old);
    t.both(room, proved, |out| make_package(&category.sizes, &BUILT_IN_IMAGE, seeds, line, out, old), shown)
}

/// Private seed, master seed, salt.
fn seeds(category: &Category, rng: &mut Rng) -> Seeds {
    let s = category.sizes;
    [s.key_seed, s.round_seed, s.salt].map(|len| rng.bytes(len))
}

/// The bytes that making a package wants.
fn room(category: &Category) -> usize {
    *package_lengths(&category.sizes).end()
}

/// Lines that have a line's length or not, each with what is due where all else is right.
fn lines(good: &[Vec<u8>; 2]) -> Vec<(Vec<u8>, u8)> {
    let noise = [(0, 1), (1, 1), (41, 1), (42, 5), (72, 5), (73, 5), (84, 5), (85, 1), (200, 1)]
        .map(|(len, due)| (vec![b'x'; len], due));
    good.clone().map(|line| (line, 0)).into_iter().chain(noise).collect()
}

/// Every choice of short, right and long for each buffer, with every line; and other lengths.
fn sizes_at(category: &Category) {
    let (mut t, mut rng, room) = (category.tally("make_package, sizes"), Rng::new(3), room(category));
    let (whole, profile, rate) = (seeds(category, &mut rng), valid(&mut rng), some_rate(&mut rng));
    let good = [None, Some(rate)].map(|rate| write_line(&BUILT_IN, &Profile { rate, ..profile }).expect("valid"));
    for choice in 0..81usize {
        let how = [choice % 3, choice / 3 % 3, choice / 9 % 3, choice / 27];
        let mut parts = whole.clone();
        for (part, how) in parts.iter_mut().zip(how) {
            part.resize(part.len() + how - 1, 0);
        }
        for (line, otherwise) in lines(&good) {
            let wanted = if how == [1; 4] { otherwise } else { 1 };
            assert_eq!(compare(category, &mut t, &parts, &line, room + how[3] - 1), wanted);
        }
    }
    let s = category.sizes;
    let shortest = *package_lengths(&s).start();
    for len in [0, 1, 2 * s.key_seed, s.signature(), shortest, s.signature() + 72, room, 2 * room] {
        for at in 0..3 {
            let mut parts = whole.clone();
            parts[at].resize(len, 0);
            assert_eq!(compare(category, &mut t, &parts, &good[0], room), 1);
        }
        let wanted = u8::from(len != room);
        assert_eq!(compare(category, &mut t, &whole, &good[0], len), wanted);
    }
    t.finish(923, &[0, 1, 5]);
}

#[test]
fn sizes() {
    CATEGORIES.iter().for_each(sizes_at);
}

/// The key of a seed, and what the archive makes of a valid line.
fn made(category: &Category, seeds: &Seeds, line: &[u8]) -> (Vec<u8>, Vec<u8>) {
    let (s, mut package) = (category.sizes, vec![0; room(category)]);
    let mut key = vec![0; s.key()];
    assert_eq!(scheme::make_key(&s, &seeds[0], &mut key), 0);
    let (answer, length) =
        category.make_package(&BUILT_IN_IMAGE, [&seeds[0], &seeds[1], &seeds[2]], line, &mut package, 0);
    assert_eq!((answer, length), (0, s.signature() + line.len()));
    package.truncate(length);
    (key, package)
}

/// Loads what the archive makes of a valid line, and looks it up.
fn load_made(category: &Category, t: &mut Tally, finds: &mut Tally, seeds: &Seeds, line: &[u8]) {
    let (key, package) = made(category, seeds, line);
    let (mut both, profile) = (Both::empty(category), read_line(&BUILT_IN, line).expect("valid"));
    let (sent, device) = (Sent { key: &key, package: &package }, Device::of(&profile));
    assert_eq!(both.load_clear(t, sent, &device), 0);
    assert_eq!(both.stored(), [profile]);
    assert_eq!(both.find(finds, &device), 0);
}

/// Packages of valid lines, each of which loads and is found, and of lines with a byte changed.
fn packages_at(category: &Category, turns: usize) {
    let [mut t, mut loads, mut finds] =
        ["make_package", "load, made packages", "lookup, made packages"].map(|what| category.tally(what));
    let mut rng = Rng::new(4);
    for turn in 0..turns {
        let (parts, mut line) = (seeds(category, &mut rng), write_line(&BUILT_IN, &valid(&mut rng)).expect("valid"));
        if turn % 3 == 2 {
            line[rng.below(50).min(41)] = rng.below(256) as u8;
        }
        if compare(category, &mut t, &parts, &line, room(category)) == 0 {
            load_made(category, &mut loads, &mut finds, &parts, &line);
        }
    }
    t.finish(turns, &[0, 5]);
    loads.finish(turns * 2 / 3, &[0]);
    finds.finish(turns * 2 / 3, &[0]);
}

#[test]
fn packages() {
    for (category, turns) in CATEGORIES.iter().zip([300, 45, 30]) {
        packages_at(category, turns);
    }
}

/// The shortest and the longest line of each kind, with the lengths of their packages at each category.
const ENDS: [(&[u8], [usize; 3]); 4] = [
    (b"GP1,XA,A,1,100,50,1001,20,1,20,1,20,-1,20\n", [19_194, 42_724, 76_340]),
    (b"GP2,XA,A,1,100,50,1001,20,1,20,1,20,-1,20,100,20\n", [19_201, 42_731, 76_347]),
    (b"GP1,XA,D,4294967295,1000,50,1500,60000,999,60000,5000,60000,-5000,60000\n", [19_224, 42_754, 76_370]),
    (
        b"GP2,XA,D,4294967295,1000,50,1500,60000,999,60000,5000,60000,-5000,60000,10000,60000\n",
        [19_236, 42_766, 76_382],
    ),
];

/// The packages of these lines load. A byte less than the shortest and a byte more than the longest are 1; between them
/// the length is right, and the parts of the signature are cut by another challenge than they were made for.
#[test]
fn ends() {
    for (at, category) in CATEGORIES.iter().enumerate() {
        let [mut t, mut loads, mut finds] =
            ["make_package, ends", "load, ends", "lookup, ends"].map(|what| category.tally(what));
        let mut rng = Rng::new(5);
        for (line, lengths) in ENDS {
            let parts = seeds(category, &mut rng);
            assert_eq!(compare(category, &mut t, &parts, line, room(category)), 0);
            load_made(category, &mut loads, &mut finds, &parts, line);
            let (key, package) = made(category, &parts, line);
            assert_eq!(package.len(), lengths[at]);
            let profile = read_line(&BUILT_IN, line).expect("valid");
            for other in [package[..package.len() - 1].to_vec(), [&package[..], b"\n"].concat()] {
                let wanted = if (42..=84).contains(&(other.len() - category.sizes.signature())) { 3 } else { 1 };
                let sent = Sent { key: &key, package: &other };
                assert_eq!(Both::empty(category).load_fast(&mut loads, sent, &Device::of(&profile)), wanted);
            }
        }
        t.finish(4, &[0]);
        loads.finish(12, &[0, 1, 3]);
        finds.finish(4, &[0]);
    }
}
