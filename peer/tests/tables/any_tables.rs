//! Images of any bytes as tables of lines: each means some table.

use crate::lines::about_rows;
use crate::under::{EVALUATE, PREVIEW, READ, WRITE};
use crate::{agree, line_of, usual};
use peer::line::image;
use peer::preview::cases::any_under;
use peer::rng::Rng;
use peer::table::cases::{all_letters, any_image, image_with, COUNTS, STRANGE};
use peer::table::{Row, Table, BUILT_IN_IMAGE, TABLE};

/// How many rows are used, with all letters in the rows: more than 26 are 26, and 0 are the built-in classes.
#[test]
fn counts() {
    let [mut reads, mut writes, mut evaluations] =
        [READ, WRITE, EVALUATE].map(|entry| entry.under("rows that are used"));
    for used in COUNTS.into_iter().chain(0..30) {
        let table = image_with(used, &all_letters(), &BUILT_IN_IMAGE);
        for (at, row) in all_letters().into_iter().enumerate() {
            let is_used = used > at as u32;
            for volts in [row.low, row.high] {
                let profile = usual(row.letter as u8, volts, 12);
                let due = match used {
                    0 => agree(&BUILT_IN_IMAGE, profile.class, volts),
                    _ => is_used,
                };
                let due = if due { 0 } else { 5 };
                reads.demand(&table, &line_of(&profile), due);
                writes.demand(&table, &image(&profile), due);
                evaluations.demand(&table, &line_of(&profile), due);
            }
        }
    }
    reads.finish(43 * 52, &[0, 5]);
    writes.finish(43 * 52, &[0, 5]);
    evaluations.finish(43 * 52, &[0, 5]);
}

/// One row of all volts with any letter: a profile is valid where its class is the letter and one from A to Z. Of a
/// letter of several bytes the low one does not count.
#[test]
fn every_letter() {
    let [mut reads, mut writes] = [READ, WRITE].map(|entry| entry.under("any letter"));
    for letter in (0..=600).chain(STRANGE).chain((0..32).map(|bit| 66 ^ 1 << bit)) {
        let table = Table::of(&[Row { letter, low: 0, high: u32::MAX }]).image();
        for class in 0..=255 {
            let profile = usual(class, 230, 12);
            let due = if u32::from(class) == letter && class.is_ascii_uppercase() { 0 } else { 5 };
            writes.demand(&table, &image(&profile), due);
            let mut line = line_of(&usual(b'B', 230, 12));
            line[7] = class;
            reads.demand(&table, &line, due);
        }
    }
    reads.finish(651 * 256, &[0, 5]);
    writes.finish(651 * 256, &[0, 5]);
}

/// Two rows that overlap in every way, in both orders: of volts that both hold the first decides.
#[test]
fn overlapping_rows() {
    let [mut reads, mut writes] = [READ, WRITE].map(|entry| entry.under("rows that overlap"));
    let ranges = [(100, 1_000), (200, 300), (250, 250), (250, 400), (301, 400), (200, 200), (0, u32::MAX), (400, 200)];
    for (one, other) in ranges.into_iter().flat_map(|one| ranges.map(|other| (one, other))) {
        for letters in [[b'P', b'Q'], [b'Q', b'P'], [b'P', b'P'], [b'P', b',']] {
            let rows = [Row::new(letters[0], one.0, one.1), Row::new(letters[1], other.0, other.1)];
            for table in [image_with(2, &rows, &BUILT_IN_IMAGE), image_with(2, &rows, &[0xFF; TABLE])] {
                for volts in [100, 199, 200, 201, 249, 250, 251, 300, 301, 400, 401, 1_000] {
                    for class in [b'P', b'Q', b'B'] {
                        let holds = |(low, high)| low <= volts && volts <= high;
                        let first = if holds(one) { Some(letters[0]) } else { holds(other).then_some(letters[1]) };
                        let (profile, due) = (usual(class, volts, 12), if first == Some(class) { 0 } else { 5 });
                        reads.demand(&table, &line_of(&profile), due);
                        writes.demand(&table, &image(&profile), due);
                    }
                }
            }
        }
    }
    reads.finish(64 * 4 * 2 * 36, &[0, 5]);
    writes.finish(64 * 4 * 2 * 36, &[0, 5]);
}

/// The same volts in all 26 rows: the first has them. With the first rows out of the way, the next.
#[test]
fn the_first_of_26_rows() {
    let mut writes = WRITE.under("26 rows with the same volts");
    for first in 0..26 {
        let row =
            |at: u32| if at < first { Row::new(b'A', 500, 400) } else { Row { letter: 65 + at, low: 1, high: 5_000 } };
        let rows: Vec<Row> = (0..26).map(row).collect();
        for used in [25, 26, 27, u32::MAX] {
            let table = image_with(used, &rows, &BUILT_IN_IMAGE);
            for class in b'A'..=b'Z' {
                let is_first = u32::from(class) == 65 + first && first < used;
                writes.demand(&table, &image(&usual(class, 450, 12)), if is_first { 0 } else { 5 });
            }
        }
    }
    writes.finish(26 * 4 * 26, &[0, 5]);
}

/// Low and high volts at the ends of numbers, with volts that a line has and has not.
#[test]
fn any_volts() {
    let [mut reads, mut writes] = [READ, WRITE].map(|entry| entry.under("volts of rows"));
    let ends = [0, 1, 99, 100, 101, 229, 230, 231, 999, 1_000, 1_001, 65_536, 65_536 + 230, 1 << 31, u32::MAX];
    for (low, high) in ends.into_iter().flat_map(|low| ends.map(|high| (low, high))) {
        let table = Table::of(&[Row::new(b'K', low, high)]).image();
        for volts in [0, 1, 99, 100, 101, 229, 230, 231, 999, 1_000, 1_001, 65_536 + 230, u32::MAX] {
            let is_valid = low <= volts && volts <= high && (100..=1_000).contains(&volts);
            let (profile, due) = (usual(b'K', volts, 12), if is_valid { 0 } else { 5 });
            reads.demand(&table, &line_of(&profile), due);
            writes.demand(&table, &image(&profile), due);
        }
    }
    reads.finish(225 * 13, &[0, 5]);
    writes.finish(225 * 13, &[0, 5]);
}

/// Each byte of a table's image of two rows changed to each value.
#[test]
fn every_byte() {
    let [mut reads, mut writes] = [READ, WRITE].map(|entry| entry.under("bytes of a table"));
    let rows = [Row::new(b'K', 200, 240), Row::new(b'L', 241, 300)];
    let good = Table::of(&rows).image();
    for (at, byte) in (0..TABLE).flat_map(|at| (0..=255).map(move |byte| (at, byte))) {
        let mut table = good;
        table[at] = byte;
        for (class, volts) in [(b'K', 240), (b'L', 241)] {
            let (profile, due) = (usual(class, volts, 12), if agree(&table, class, volts) { 0 } else { 5 });
            reads.demand(&table, &line_of(&profile), due);
            writes.demand(&table, &image(&profile), due);
        }
    }
    reads.finish(TABLE * 512, &[0, 5]);
    writes.finish(TABLE * 512, &[0, 5]);
}

/// Any image, and profiles about its rows: read, written and evaluated.
#[test]
fn any_images() {
    about_rows("any table", 0x616E_7974, any_image);
}

/// Listings under any image.
#[test]
fn listings() {
    let (mut previews, mut rng) = (PREVIEW.under("any table"), Rng::new(0x616E_796C));
    for _ in 0..8_000 {
        let lent = any_image(&mut rng);
        let input = any_under(&mut rng, &Table::from_image(&lent));
        previews.demand(&lent, &input, 0);
    }
    previews.finish(8_000, &[0]);
}

/// Bytes that are all the same, and nothing but noise.
#[test]
fn noise() {
    let [mut reads, mut writes] = [READ, WRITE].map(|entry| entry.under("noise as a table"));
    let mut rng = Rng::new(0x6E6F_6973);
    let same = (0..=255).map(|byte| vec![byte; TABLE]);
    for bytes in same.chain((0..1_000).map(|_| rng.bytes(TABLE))) {
        let table: [u8; TABLE] = bytes.try_into().expect("an image");
        for (class, volts) in [(b'A', 100), (b'B', 230), (b'C', 400), (b'D', 1_000), (b'Z', 500)] {
            let (profile, due) = (usual(class, volts, 12), if agree(&table, class, volts) { 0 } else { 5 });
            reads.demand(&table, &line_of(&profile), due);
            writes.demand(&table, &image(&profile), due);
        }
    }
    reads.finish(1_256 * 5, &[0, 5]);
    writes.finish(1_256 * 5, &[0, 5]);
}
