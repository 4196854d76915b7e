//! The worked file, what is sound and what is not, and what images of any bytes mean.

mod wrong;

use super::cases::{
    all_letters, any_file, any_image, file_of, image_with, some_volts, sound, sound_rows, COUNTS, LISTED, RAILWAY,
    STRANGE,
};
use super::*;
use crate::entries;
use crate::line::cases::valid_under;
use crate::line::{read_line, write_line, Profile};
use crate::rng::Rng;

/// The worked image: how many rows, the rows, and zeros.
const RAILWAY_IMAGE: [[u8; 12]; 4] = [
    [0x45, 0, 0, 0, 0x64, 0, 0, 0, 0xC7, 0, 0, 0],
    [0x4D, 0, 0, 0, 0xC8, 0, 0, 0, 0x90, 1, 0, 0],
    [0x52, 0, 0, 0, 0x58, 2, 0, 0, 0x84, 3, 0, 0],
    [0x54, 0, 0, 0, 0xB6, 3, 0, 0, 0xE8, 3, 0, 0],
];

fn read(file: &str) -> Table {
    read_table(file.as_bytes()).expect("a sound file")
}

#[test]
fn the_worked_file() {
    assert_eq!((RAILWAY.len(), TABLE), (41, 316));
    let (table, wanted) = (read(RAILWAY), [&[4, 0, 0, 0], &RAILWAY_IMAGE.concat()[..], &[0; 264]].concat());
    assert_eq!(table.image(), wanted[..]);
    let volts = [100, 199, 200, 400, 401, 599, 600, 900, 901, 949, 950, 1_000];
    let classes = volts.map(|volts| table.class_of(volts).map_or('-', char::from));
    assert_eq!(String::from_iter(classes), "EEMM--RR--TT");
    assert_eq!(String::from_iter(('A'..='Z').filter(|&letter| table.has_letter(letter as u32))), "EMRT");
}

/// A line of the worked table, which is none of the built-in classes, and the other way round.
#[test]
fn the_worked_lines() {
    let line = |class: char| format!("GP1,XA,{class},12,750,50,1150,100,800,1500,1500,100,-2500,100\n");
    for (table, is_line) in [(&read(RAILWAY), 'R'), (&BUILT_IN, 'D')] {
        for class in 'A'..='Z' {
            let profile = read_line(table, line(class).as_bytes());
            assert_eq!(profile.is_ok(), class == is_line, "{class}");
            assert_eq!(profile.err().unwrap_or(5), 5, "{class}");
        }
        let profile = read_line(table, line(is_line).as_bytes()).expect("a line");
        assert_eq!(write_line(table, &profile), Ok(line(is_line).into_bytes()));
    }
}

#[test]
fn listed_files() {
    for (name, file, is_sound) in LISTED {
        let mut image = [7; TABLE];
        let answer = entries::read_table(file.as_bytes(), &mut image);
        assert_eq!(answer, if is_sound { 0 } else { 13 }, "{name}");
        assert_eq!(image == [7; TABLE], !is_sound, "{name}");
    }
}

/// Up to 26 rows are sound, and a 27th finds no letter: whatever it is, the file is not.
#[test]
fn many_rows() {
    for count in 0..=ROWS {
        let file = file_of(&all_letters()[..count]);
        assert_eq!(read_table(&file), if count == 0 { Err(13) } else { Ok(Table::of(&all_letters()[..count])) });
    }
    let most = file_of(&sound_rows(&mut Rng::new(80), ROWS)[..]);
    for more in ["Z,1000,1000\n", "[,1000,1000\n", "AA,1000,1000\n", "a,1000,1000\n", "\n"] {
        assert_eq!(read_table(&[&most[..], more.as_bytes()].concat()), Err(13), "{more}");
    }
    assert!(read_table(&"E,100,199\n".repeat(10_000).into_bytes()).is_err());
}

/// A sound file has 10 to 262 bytes, and what is read is written as that file: no table has two spellings.
#[test]
fn one_spelling() {
    let (mut rng, mut read) = (Rng::new(81), 0);
    for _ in 0..50_000 {
        let file = any_file(&mut rng);
        if let Ok(table) = read_table(&file) {
            assert_eq!(file_of(table.rows()), file);
            assert!((SHORTEST_FILE..=LONGEST_FILE).contains(&file.len()), "{}", file.len());
            read += 1;
        }
    }
    assert!((10_000..40_000).contains(&read), "{read}");
    let longest = (b'A'..=b'Z').zip(100..).map(|(letter, volts)| Row::new(letter, volts, volts));
    let mut longest: Vec<Row> = longest.collect();
    longest[25].high = 1_000;
    assert_eq!(file_of(&longest).len(), 261);
    longest[25].low = 1_000;
    assert_eq!((file_of(&longest).len(), LONGEST_FILE), (262, 262));
    assert_eq!(read_table(&file_of(&longest)), Ok(Table::of(&longest)));
}

/// Images of sound tables mean these tables.
#[test]
fn images_and_tables_undo_each_other() {
    let mut rng = Rng::new(82);
    for _ in 0..5_000 {
        let table = sound(&mut rng);
        assert_eq!(read_table(&file_of(table.rows())).as_ref(), Ok(&table));
        assert_eq!(Table::from_image(&table.image()), table);
        let mut noise = [0; TABLE];
        rng.fill(&mut noise);
        assert_eq!(Table::from_image(&image_with(table.rows().len() as u32, table.rows(), &noise)), table);
    }
    assert_eq!(BUILT_IN.image(), BUILT_IN_IMAGE);
    assert_eq!(Table::from_image(&BUILT_IN_IMAGE), BUILT_IN);
}

/// Sound rows: letters and volts rise, and every end comes.
#[test]
fn drawn_rows() {
    let (mut rng, mut seen) = (Rng::new(83), [0; 4]);
    for count in (1..=ROWS).cycle().take(5_000) {
        let rows = sound_rows(&mut rng, count);
        assert!(rows.len() == count && rows.windows(2).all(rises), "{rows:?}");
        assert!(rows.iter().all(|row| 100 <= row.low && row.low <= row.high && row.high <= 1_000), "{rows:?}");
        let touching = rows.windows(2).any(|pair| pair[0].high + 1 == pair[1].low);
        let kinds = [rows[0].low == 100, rows[count - 1].high == 1_000, touching, rows[0].low == rows[0].high];
        seen.iter_mut().zip(kinds).for_each(|(sum, kind)| *sum += usize::from(kind));
    }
    assert!(seen.iter().all(|&count| count > 500), "{seen:?}");
}

/// The class of volts found in another way: from the last row that is used to the first, each taking what it holds.
fn from_the_last(image: &[u8; TABLE], volts: u32) -> Option<u8> {
    let number = |at: usize| u32::from_le_bytes([image[at], image[at + 1], image[at + 2], image[at + 3]]);
    let used = number(0);
    let mut class = None;
    for at in (0..26).rev().filter(|&at| used > at) {
        let start = 4 + 12 * at as usize;
        if number(start + 4) <= volts && volts <= number(start + 8) {
            class = Some(number(start));
        }
    }
    class.and_then(|class| (b'A'..=b'Z').find(|&letter| u32::from(letter) == class))
}

#[test]
fn images_of_any_bytes() {
    let (mut rng, mut with_class) = (Rng::new(84), 0);
    for _ in 0..20_000 {
        let image = any_image(&mut rng);
        let table = Table::from_image(&image);
        if image[..4] == [0; 4] {
            assert_eq!(table, BUILT_IN);
            continue;
        }
        for _ in 0..4 {
            let volts = some_volts(&mut rng, &table);
            let wanted = from_the_last(&image, volts).filter(|_| (100..=1_000).contains(&volts));
            assert_eq!(table.class_of(volts), wanted, "{volts} {table:?}");
            with_class += usize::from(wanted.is_some());
        }
    }
    assert!((20_000..70_000).contains(&with_class), "{with_class}");
}

/// Of several rows that hold some volts the first counts, also where its letter is none.
#[test]
fn the_first_row_counts() {
    let rows = [Row::new(b'Q', 200, 300), Row::new(b'B', 250, 400), Row { letter: 300, low: 390, high: 500 }];
    let table = Table::from_image(&image_with(3, &rows, &BUILT_IN_IMAGE));
    assert_eq!(
        [199, 200, 250, 300, 301, 400, 401].map(|volts| table.class_of(volts).map_or('-', char::from)),
        ['-', 'Q', 'Q', 'Q', 'B', 'B', '-']
    );
    let rows = [rows[2], rows[1], rows[0]];
    let table = Table::from_image(&image_with(3, &rows, &BUILT_IN_IMAGE));
    assert_eq!(
        [249, 250, 300, 389, 390, 400].map(|volts| table.class_of(volts).map_or('-', char::from)),
        ['Q', 'B', 'B', 'B', '-', '-']
    );
}

/// More rows than there are count as all of them, and none as the built-in classes.
#[test]
fn counts() {
    let rows = all_letters();
    for used in COUNTS {
        let table = Table::from_image(&image_with(used, &rows, &BUILT_IN_IMAGE));
        let wanted = match used {
            0 => &BUILT_IN_ROWS[..],
            _ => &rows[..used.min(26) as usize],
        };
        assert_eq!(table.rows(), wanted, "{used}");
    }
}

/// A letter may be any number, but no profile has one that is not from A to Z.
#[test]
fn strange_letters() {
    for letter in STRANGE {
        let table = Table::of(&[Row { letter, low: 0, high: u32::MAX }]);
        assert!(table.has_letter(letter) && !table.has_letter(u32::from(b'B')));
        assert_eq!([0, 99, 100, 230, 1_000, 1_001].map(|volts| table.class_of(volts)), [None; 6], "{letter}");
        let profile = Profile { class: letter as u8, ..valid_under(&mut Rng::new(85), &BUILT_IN) };
        assert_eq!(write_line(&table, &profile), Err(5), "{letter}");
    }
}

/// Volts that no line has make no class, whatever a row holds.
#[test]
fn volts_of_a_line() {
    let table = Table::of(&[Row { letter: 66, low: 0, high: u32::MAX }]);
    let classes = [0, 99, 100, 1_000, 1_001, u32::MAX].map(|volts| table.class_of(volts));
    assert_eq!(classes, [None, None, Some(b'B'), Some(b'B'), None, None]);
}

/// A table of another size is 1, before anything else.
#[test]
fn sizes() {
    for len in (0..=640).filter(|&len| len != TABLE) {
        let mut image = vec![7; len];
        assert_eq!([RAILWAY, ""].map(|file| entries::read_table(file.as_bytes(), &mut image)), [1, 1], "{len}");
        assert_eq!(image, vec![7; len]);
        assert_eq!(Table::lent(&image), Err(1), "{len}");
    }
}
