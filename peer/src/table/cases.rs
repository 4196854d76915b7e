//! Files and images of tables to compare on.

mod listed;

pub use listed::{LISTED, RAILWAY};

use super::*;
use crate::line::cases::valid;
use crate::line::Profile;
use crate::rng::Rng;

/// The file of these rows, as the rules write it.
pub fn file_of(rows: &[Row]) -> Vec<u8> {
    let text = |row: &Row| format!("{},{},{}\n", char::from(row.letter as u8), row.low, row.high);
    rows.iter().map(text).collect::<String>().into_bytes()
}

/// So many letters, rising.
fn letters(rng: &mut Rng, count: usize) -> Vec<u8> {
    let mut all: Vec<u8> = (b'A'..=b'Z').collect();
    while all.len() > count {
        all.remove(rng.below(all.len()));
    }
    all
}

/// So many sound rows. Often the ranges follow on one another, have one volt, or begin at the least or end at the most.
pub fn sound_rows(rng: &mut Rng, count: usize) -> Vec<Row> {
    let room = 901 - count;
    let mut starts: Vec<usize> = (0..2 * count).map(|_| [0, room, rng.below(room + 1)][rng.below(9).min(2)]).collect();
    starts.sort();
    for at in 1..starts.len() {
        if rng.below(4) == 0 {
            starts[at] = starts[at - 1];
        }
    }
    let volts = |at: usize| (100 + at / 2 + starts[at]) as u32;
    let letters = letters(rng, count).into_iter().enumerate();
    letters.map(|(at, letter)| Row::new(letter, volts(2 * at), volts(2 * at + 1))).collect()
}

/// A sound table of as many rows as there may be, but often of few or of all.
pub fn sound(rng: &mut Rng) -> Table {
    let count = [1, 4, ROWS, 1 + rng.below(4), 1 + rng.below(ROWS)][rng.below(5)];
    Table(sound_rows(rng, count))
}

/// The letters in their order, each with as many volts as all others, but for the last, which has the rest.
pub fn all_letters() -> Vec<Row> {
    let row = |at: u32| Row::new(b'A' + at as u8, 100 + 34 * at, if at < 25 { 133 + 34 * at } else { 1_000 });
    (0..26).map(row).collect()
}

/// Texts for volts: the ends of the range, what stands beside them, and other spellings.
const VOLTS: [&str; 28] = [
    "100",
    "101",
    "999",
    "1000",
    "99",
    "1001",
    "0",
    "1",
    "500",
    "0100",
    "00100",
    "+100",
    "-100",
    " 100",
    "100 ",
    "100\r",
    "\t100",
    "1e3",
    "100.0",
    "0x64",
    "",
    "4294967296",
    "4294967396",
    "4294968096",
    "99999",
    "١00",
    "10000",
    "010",
];

/// Texts for letters.
const LETTERS: [&str; 12] = ["A", "Z", "@", "[", "a", "z", "", "AA", " A", "A ", "1", "\u{c1}"];

/// Another text in a field of some row.
fn with_other_field(rng: &mut Rng, file: &[u8]) -> Vec<u8> {
    let mut rows: Vec<Vec<String>> =
        String::from_utf8_lossy(file).lines().map(|row| row.split(',').map(str::to_string).collect()).collect();
    let at = rng.below(rows.len());
    let fields = &mut rows[at];
    match rng.below(12) {
        0 => drop(fields.pop()),
        1 => fields.push("100".to_string()),
        2 => fields.swap(1, 2),
        3 => fields[0] = LETTERS[rng.below(LETTERS.len())].to_string(),
        4..=6 => fields[1 + rng.below(2)] = VOLTS[rng.below(VOLTS.len())].to_string(),
        _ => {
            let field = &mut fields[1 + rng.below(2)];
            let number: u32 = field.parse().expect("volts");
            *field = [number - 1, number + 1, number + 256, number + 65_536][rng.below(4)].to_string();
        }
    }
    rows.iter().map(|fields| fields.join(",") + "\n").collect::<String>().into_bytes()
}

/// A row more, less, twice or in another place.
fn with_other_rows(rng: &mut Rng, file: &[u8]) -> Vec<u8> {
    let mut rows: Vec<&[u8]> = file.split_inclusive(|&byte| byte == b'\n').collect();
    let (at, to) = (rng.below(rows.len()), rng.below(rows.len()));
    match rng.below(6) {
        0 => drop(rows.remove(at)),
        1 => rows.insert(at, rows[to]),
        2 => rows.swap(at, to),
        3 => rows.insert(at, b"\n"),
        4 => rows.insert(at, b"M,500,510\n"),
        _ => rows.push(b"Z,1000,1000\n"),
    }
    rows.concat()
}

/// A byte or two taken out, put in or exchanged, or another end.
fn with_other_bytes(rng: &mut Rng, file: &[u8]) -> Vec<u8> {
    let (mut out, usual) = (file.to_vec(), b"0123456789,\nAZ +-\r\0az");
    for _ in 0..1 + rng.below(2) {
        let at = rng.below(out.len());
        match rng.below(7) {
            0 => drop(out.remove(at)),
            1 => out.insert(at, usual[rng.below(usual.len())]),
            2 => out[at] = usual[rng.below(usual.len())],
            3 => out[at] = rng.below(256) as u8,
            4 => out.truncate(at + 1),
            5 => out.push(usual[rng.below(usual.len())]),
            _ => out.insert(out.len() - 1, b'\r'),
        }
    }
    out
}

/// Any file: a sound one, one with a field, a row or a byte or two other than they were, or noise.
pub fn any_file(rng: &mut Rng) -> Vec<u8> {
    let file = file_of(sound(rng).rows());
    match rng.below(16) {
        0..=2 => file,
        3..=7 => with_other_field(rng, &file),
        8..=10 => with_other_rows(rng, &file),
        11..=13 => with_other_bytes(rng, &file),
        14 => {
            let file = with_other_field(rng, &file);
            with_other_bytes(rng, &file)
        }
        _ => {
            let (len, usual) = (rng.below(300), b"0123456789,,\n\nABZ");
            (0..len).map(|_| usual[rng.below(usual.len())]).collect()
        }
    }
}

/// Letters that no file has: beside A and Z, those of lines' own signs, of small ones, and numbers of more than a byte,
/// in whose low byte may stand A, B or Z.
pub const STRANGE: [u32; 18] = [
    0,
    10,
    44,
    48,
    64,
    91,
    97,
    98,
    122,
    255,
    300,
    65 + 256,
    66 + 256,
    90 + 65_536,
    66 + (1 << 24),
    66 << 24,
    u32::MAX - 1,
    u32::MAX,
];

/// How many rows an image says are used: none, some, all, and more than there are.
pub const COUNTS: [u32; 13] = [0, 1, 2, 4, 25, 26, 27, 28, 255, 256, 65_536, 1 << 31, u32::MAX];

/// Volts of a row that no file has: at the ends of the range, beside them, any, and so great that a sum would wrap.
fn strange_volts(rng: &mut Rng) -> u32 {
    let ends = [0, 1, 99, 100, 101, 999, 1_000, 1_001, 65_536 + 230, u32::MAX];
    match rng.below(4) {
        0 => ends[rng.below(ends.len())],
        1 => rng.word() as u32,
        _ => 90 + rng.below(930) as u32,
    }
}

/// A row of any numbers, mostly with a letter from A to Z and volts that a line may have. It may hold none.
fn any_row(rng: &mut Rng) -> Row {
    let letter = if rng.below(4) == 0 { STRANGE[rng.below(STRANGE.len())] } else { 65 + rng.below(26) as u32 };
    let (low, high) = (strange_volts(rng), strange_volts(rng));
    if rng.below(8) == 0 {
        return Row { letter, low, high };
    }
    Row { letter, low: low.min(high), high: low.max(high) }
}

/// The image with these rows first, with this number of rows used, and with these bytes behind.
pub fn image_with(used: u32, rows: &[Row], rest: &[u8; TABLE]) -> [u8; TABLE] {
    let numbers = rows.iter().flat_map(|row| [row.letter, row.low, row.high]);
    let front: Vec<u8> = [used].into_iter().chain(numbers).flat_map(u32::to_le_bytes).collect();
    let mut bytes = *rest;
    bytes[..front.len()].copy_from_slice(&front);
    bytes
}

/// Any image: zeros, that of a sound table, the same with noise in the rows that are not used or with another number of
/// rows used, rows that no file has and that overlap, or noise.
pub fn any_image(rng: &mut Rng) -> [u8; TABLE] {
    let (mut noise, table) = ([0; TABLE], sound(rng));
    rng.fill(&mut noise);
    let used = COUNTS[rng.below(COUNTS.len())];
    match rng.below(16) {
        0 => BUILT_IN_IMAGE,
        1..=3 => table.image(),
        4 => image_with(table.rows().len() as u32, table.rows(), &noise),
        5 => image_with(used, table.rows(), &noise),
        6 => image_with(used, table.rows(), &BUILT_IN_IMAGE),
        7 => noise,
        _ => {
            let rows: Vec<Row> = (0..ROWS).map(|_| any_row(rng)).collect();
            let few = 1 + rng.below(4) as u32;
            image_with([used, few, few, 26][rng.below(4)], &rows, &noise)
        }
    }
}

/// Volts about which a table decides: at an end of a row, beside it or within it, or any that a line may have.
pub fn some_volts(rng: &mut Rng, table: &Table) -> u32 {
    let Row { low, high, .. } = table.rows()[rng.below(table.rows().len())];
    let inside = low.wrapping_add((rng.word() % (u64::from(high.wrapping_sub(low)) + 1)) as u32);
    let any = 100 + rng.below(901) as u32;
    let volts = [low, high, low.wrapping_sub(1), high.wrapping_add(1), inside, inside, any][rng.below(7)];
    if rng.below(8) > 0 && !NOMINAL_VOLTS.contains(&volts) {
        return any;
    }
    volts
}

/// A profile that breaks no rule but perhaps those of class and volts: mostly its volts have its class under the table.
/// Now and then the class is another letter of the table or any byte.
pub fn some_profile(rng: &mut Rng, table: &Table) -> Profile {
    let (volts, base) = (some_volts(rng, table), valid(rng));
    let letter = table.rows()[rng.below(table.rows().len())].letter as u8;
    let class = match rng.below(16) {
        0 => letter,
        1 => base.class,
        2 => rng.below(256) as u8,
        _ => table.class_of(volts).unwrap_or(letter),
    };
    Profile { volts, class, ..base }
}
