//! Tables of other sizes, lent to the entries on lines and packages: 1, whatever else is wrong.

use crate::under::{Entry, EVALUATE, PREVIEW, READ, WRITE};
use crate::{line_of, railway, usual};
use peer::archive::{Category, CATEGORIES};
use peer::harness::{Lent, Tally};
use peer::line::image;
use peer::rng::Rng;
use peer::store::{make_package_by, package_lengths};
use peer::table::TABLE;

/// Every length up to twice the right one, with a good input and bad ones.
fn lengths_of(entry: Entry, inputs: &[(Vec<u8>, u8)]) {
    let (mut t, table) = (entry.under("sizes of tables"), railway().image().repeat(2));
    for len in 0..=2 * TABLE {
        for (input, otherwise) in inputs {
            t.demand(&table[..len], input, if len == TABLE { *otherwise } else { 1 });
        }
    }
    for len in [0, 1, TABLE - 1, TABLE, TABLE + 1, 1_216, 1_532] {
        let table: Vec<u8> = table.iter().copied().cycle().take(len).collect();
        for room in [0, 1, 75, 76, 77, 83, 84, 85, 330, 331, 332] {
            for (input, otherwise) in inputs {
                let wanted = if (len, room) == (TABLE, entry.room) { *otherwise } else { 1 };
                assert_eq!(t.compare(&table, input, room), wanted, "{len} {room}");
            }
        }
    }
    let mut reached: Vec<u8> = inputs.iter().map(|input| input.1).chain([1]).collect();
    reached.sort();
    t.finish((2 * TABLE + 1 + 77) * inputs.len(), &reached);
}

#[test]
fn of_lines() {
    let (good, other) = (usual(b'R', 750, 12), usual(b'D', 750, 12));
    let lines = |faults: &[u8]| vec![(line_of(&good), 0), (line_of(&other), 5), (faults.to_vec(), 1)];
    lengths_of(READ, &lines(b"short"));
    lengths_of(WRITE, &[(image(&good).to_vec(), 0), (image(&other).to_vec(), 5), (vec![0; 75], 1)]);
    lengths_of(EVALUATE, &[lines(&[b'1'; 401]), vec![(b"".to_vec(), 5)]].concat());
    lengths_of(PREVIEW, &[(line_of(&good), 0), (vec![b'\n'; 70_000], 0)]);
}

/// Makes a package in both programs.
fn make(category: &Category, t: &mut Tally, table: &[u8], seeds: &[Vec<u8>; 3], line: &[u8], room: usize) -> u8 {
    let old = t.inputs().wrapping_mul(0x9E37_79B9);
    let lent = Lent::holding(table, t.inputs());
    let seeds = seeds.each_ref().map(|seed| &seed[..]);
    let plain = |out: &mut [u8]| make_package_by(&category.sizes, table, seeds, line, out, old, &category.plain.sign);
    let proved = |out: &mut [u8]| category.make_package(lent.content(), seeds, line, out, old);
    let answer = t.both(room, proved, plain, || format!("{} bytes into {room} under {}", line.len(), table.len()));
    assert!(lent.content() == table, "the table");
    answer
}

/// Sizes of tables, with seeds, lines and buffers that are right and not.
fn packages_at(category: &Category) {
    let (mut t, mut rng) = (category.tally("make_package, sizes of tables"), Rng::new(0x7369_7A65));
    let (s, table) = (category.sizes, railway().image().repeat(2));
    let seeds = [s.key_seed, s.round_seed, s.salt].map(|len| rng.bytes(len));
    let room = *package_lengths(&s).end();
    let (good, other) = (line_of(&usual(b'R', 750, 12)), line_of(&usual(b'D', 750, 12)));
    for len in (0..=2 * TABLE).filter(|&len| len != TABLE) {
        assert_eq!(make(category, &mut t, &table[..len], &seeds, &good, room), 1, "{len}");
        assert_eq!(make(category, &mut t, &table[..len], &seeds, &other, room), 1, "{len}");
    }
    for (line, due) in [(&good[..], 0), (&other, 5), (b"short", 1)] {
        assert_eq!(make(category, &mut t, &table[..TABLE], &seeds, line, room), due);
        for (len, wrong) in [TABLE - 1, TABLE, TABLE + 1].into_iter().flat_map(|len| (0..4).map(move |at| (len, at))) {
            let (mut parts, mut room) = (seeds.clone(), room);
            match parts.get_mut(wrong) {
                Some(part) => part.push(0),
                None => room -= 1,
            }
            assert_eq!(make(category, &mut t, &table[..len], &parts, line, room), 1, "{len} {wrong}");
        }
    }
    t.finish(2 * 632 + 3 * 13, &[0, 1, 5]);
}

#[test]
fn of_packages() {
    CATEGORIES.iter().for_each(packages_at);
}
