//! Lines read, written and evaluated under sound tables, and the preview.

use crate::under::{EVALUATE, PREVIEW, READ, WRITE};
use crate::{agree, line_of, railway, sound_tables, usual};
use peer::evaluate::cases::{any_of, good_of, with_field};
use peer::harness::LEAST;
use peer::line::cases::valid_under;
use peer::line::image;
use peer::preview::cases::any_under;
use peer::preview::HEADER;
use peer::rng::Rng;
use peer::table::cases::{some_profile, sound};
use peer::table::{Table, BUILT_IN_IMAGE, TABLE};

/// Letters, and what stands beside them.
fn letters() -> impl Iterator<Item = u8> {
    (b'A'..=b'Z').chain(*b"@[azs 0")
}

/// Every volts and letter under each table: read, written and evaluated just where the row that holds the volts has the
/// letter.
#[test]
fn every_volts_and_letter() {
    let [mut reads, mut writes, mut evaluations] =
        [READ, WRITE, EVALUATE].map(|entry| entry.under("volts and letters"));
    for table in sound_tables().map(|table| table.image()) {
        for (volts, class) in (95..=1_005).flat_map(|volts| letters().map(move |class| (volts, class))) {
            let profile = usual(class, volts, 12);
            let (line, due) = (line_of(&profile), if agree(&table, class, volts) { 0 } else { 5 });
            reads.demand(&table, &line, due);
            writes.demand(&table, &image(&profile), due);
            if due == 0 {
                assert_eq!(READ.written(&table, &line), image(&profile));
                assert_eq!(WRITE.written(&table, &image(&profile)), line);
            }
            if due == 0 || class % 4 == (volts % 4) as u8 {
                let line = String::from_utf8(line).expect("letters and digits");
                for (at, limit, fault) in [(6, "N-N+1150", 0), (8, "1/0", 12), (10, "", 11), (12, "2500", 5)] {
                    let wanted = if due == 0 { fault } else { due };
                    evaluations.demand(&table, &with_field(&line, at, limit.as_bytes()), wanted);
                }
            }
        }
    }
    reads.finish(6 * 911 * 33, &[0, 5]);
    writes.finish(6 * 911 * 33, &[0, 5]);
    evaluations.finish(6 * 911 * 8, &[0, 5, 11, 12]);
}

/// A line for each volts and the letter that it has, or for some letter: it has a row in the listing, or none.
#[test]
fn listings_of_every_volts() {
    let mut previews = PREVIEW.under("every volts");
    for table in sound_tables().map(|table| table.image()) {
        for volts in 95..=1_005 {
            let class = letters().find(|&class| agree(&table, class, volts));
            let shown = class.unwrap_or(b'B');
            let line = line_of(&usual(shown, volts, 12));
            previews.demand(&table, &line, 0);
            let row = class.map_or(String::new(), |class| format!("XA,{},50,12\n", char::from(class)));
            assert_eq!(PREVIEW.written(&table, &line), (HEADER.to_string() + &row).into_bytes(), "{volts}");
        }
    }
    previews.finish(6 * 911, &[0]);
}

/// Volts in the gaps of the worked table: no letter makes a line of them.
#[test]
fn gaps() {
    let [mut reads, mut writes] = [READ, WRITE].map(|entry| entry.under("gaps"));
    let table = railway().image();
    for volts in (401..=599).chain(901..=949) {
        for class in b'A'..=b'Z' {
            reads.demand(&table, &line_of(&usual(class, volts, 12)), 5);
            writes.demand(&table, &image(&usual(class, volts, 12)), 5);
        }
    }
    reads.finish(248 * 26, &[5]);
    writes.finish(248 * 26, &[5]);
}

/// The worked lines: one is read under the railway's table and not under the built-in classes, the other the other way
/// round.
#[test]
fn worked_lines() {
    let mut reads = READ.under("worked lines");
    for (table, class) in [(railway().image(), b'R'), (BUILT_IN_IMAGE, b'D')] {
        for other in [b'R', b'D'] {
            reads.demand(&table, &line_of(&usual(other, 750, 12)), if other == class { 0 } else { 5 });
        }
    }
    reads.finish(4, &[0, 5]);
}

/// Valid lines of any sound table: read, written back, evaluated to themselves and with formulas.
#[test]
fn valid_lines() {
    let [mut reads, mut writes, mut evaluations] = [READ, WRITE, EVALUATE].map(|entry| entry.under("valid lines"));
    let mut rng = Rng::new(0x7661_6C69);
    while reads.inputs() < LEAST {
        let table = sound(&mut rng);
        let lent = table.image();
        for _ in 0..8 {
            let profile = valid_under(&mut rng, &table);
            let line = line_of(&profile);
            reads.demand(&lent, &line, 0);
            writes.demand(&lent, &image(&profile), 0);
            assert_eq!(WRITE.written(&lent, &READ.written(&lent, &line)), line);
            let formulas = peer::evaluate::cases::joined(&good_of(&mut rng, &profile));
            evaluations.demand(&lent, &formulas, 0);
            assert_eq!(EVALUATE.written(&lent, &formulas), line);
            assert_eq!(EVALUATE.written(&lent, &line), line);
        }
    }
    reads.finish(LEAST, &[0]);
    writes.finish(LEAST, &[0]);
    evaluations.finish(LEAST, &[0]);
}

/// Profiles about the rows of tables that are drawn, with letters of the table and others; and lines with formulas of
/// every kind.
pub fn about_rows(what: &str, seed: u64, draw: fn(&mut Rng) -> [u8; TABLE]) {
    let [mut reads, mut writes, mut evaluations] = [READ, WRITE, EVALUATE].map(|entry| entry.under(what));
    let mut rng = Rng::new(seed);
    while reads.inputs() < LEAST {
        let lent = draw(&mut rng);
        let table = Table::from_image(&lent);
        for _ in 0..8 {
            let profile = some_profile(&mut rng, &table);
            let due = if agree(&lent, profile.class, profile.volts) { 0 } else { 5 };
            let line = line_of(&profile);
            if line.len() <= 84 {
                reads.demand(&lent, &line, due);
            }
            writes.demand(&lent, &image(&profile), due);
            evaluations.agree(&lent, &any_of(&mut rng, &profile));
        }
    }
    reads.finish(LEAST, &[0, 5]);
    writes.finish(LEAST, &[0, 5]);
    evaluations.finish(LEAST, &[0, 1, 5, 11, 12]);
}

#[test]
fn about_the_ends() {
    about_rows("ends of rows", 0x656E_6473, |rng| sound(rng).image());
}

/// Lines of any sound table, listed under it and under another.
#[test]
fn listings() {
    let (mut previews, mut rng) = (PREVIEW.under("sound tables"), Rng::new(0x6C69_7374));
    let mut rows = [0; 2];
    for _ in 0..4_000 {
        let tables: [Table; 2] = [sound(&mut rng), sound(&mut rng)];
        let input = any_under(&mut rng, &tables[0]);
        for (rows, table) in rows.iter_mut().zip(tables.map(|table| table.image())) {
            previews.demand(&table, &input, 0);
            *rows += PREVIEW.written(&table, &input).iter().filter(|&&byte| byte == b'\n').count() - 1;
        }
    }
    println!("rows under the lines' own table, and under another: {rows:?}");
    assert!(rows[0] > 20_000 && rows[1] > 1_000 && rows[1] < rows[0], "{rows:?}");
    previews.finish(8_000, &[0]);
}
