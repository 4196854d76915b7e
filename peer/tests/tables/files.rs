//! Files read: sound ones, every kind of broken one, and every byte of some changed.

use crate::sound_tables;
use peer::harness::{Comparison, LEAST};
use peer::rng::Rng;
use peer::table::cases::{all_letters, any_file, file_of, sound, sound_rows, LISTED, RAILWAY};
use peer::table::{Row, ROWS, TABLE};
use peer::{archive, entries};

fn reader(least: usize) -> Comparison {
    Comparison::new("read_table", archive::read_table, entries::read_table).at_least(least)
}

/// 0 for a sound file, and else 13.
fn due(is_sound: bool) -> u8 {
    if is_sound {
        0
    } else {
        13
    }
}

/// The railway's file is read as the worked bytes, whatever was lent.
#[test]
fn the_worked_file() {
    let rows = [
        [0x45, 0, 0, 0, 0x64, 0, 0, 0, 0xC7, 0, 0, 0],
        [0x4D, 0, 0, 0, 0xC8, 0, 0, 0, 0x90, 1, 0, 0],
        [0x52, 0, 0, 0, 0x58, 2, 0, 0, 0x84, 3, 0, 0],
        [0x54, 0, 0, 0, 0xB6, 3, 0, 0, 0xE8, 3, 0, 0],
    ];
    let wanted = [&[4, 0, 0, 0], &rows.concat()[..], &[0; 264]].concat();
    for old in [0, 0xA5, 0xFF] {
        let mut image = [old; TABLE];
        assert_eq!(archive::read_table(RAILWAY.as_bytes(), &mut image), 0);
        assert_eq!(image, wanted[..]);
    }
}

/// The example that comes with the library is the worked file.
#[test]
fn the_file_of_the_examples() {
    assert_eq!(include_str!("../../../examples/railway.classes"), RAILWAY);
}

/// Each into an image of the right size, and into others, where 1 comes first.
#[test]
fn files_written_by_hand() {
    let mut c = reader(9 * LISTED.len());
    for (_, file, is_sound) in LISTED {
        c.demand(file.as_bytes(), TABLE, due(is_sound));
        for room in [0, 1, 4, 76, 315, 317, 632, 1_532] {
            c.demand(file.as_bytes(), room, 1);
        }
    }
    c.finish(&[0, 1, 13]);
}

/// Sound tables of every number of rows, those of 1, 4 and 26 more often.
#[test]
fn sound_files() {
    let (mut c, mut rng) = (reader(LEAST), Rng::new(0x736F_756E));
    for table in &sound_tables()[1..] {
        c.demand(&file_of(table.rows()), TABLE, 0);
    }
    for count in (1..=ROWS).cycle().take(26 * 400) {
        c.demand(&file_of(&sound_rows(&mut rng, count)), TABLE, 0);
    }
    while c.missing() > 0 {
        c.demand(&file_of(sound(&mut rng).rows()), TABLE, 0);
    }
    c.finish(&[0]);
}

/// No row, up to 26, and a 27th of any letter and volts; and so many that no letter is left for them.
#[test]
fn rows() {
    let (mut c, mut rng) = (reader(27 + 20 * 260), Rng::new(0x726F_7773));
    for count in 0..=ROWS {
        c.demand(&file_of(&all_letters()[..count]), TABLE, due(count > 0));
    }
    for _ in 0..20 {
        let most = sound_rows(&mut rng, ROWS);
        let room = most[25].high + 1;
        for letter in 0..=255 {
            let more =
                [&file_of(&most)[..], &[letter], format!(",{},{}\n", room.min(1_000), 1_000).as_bytes()].concat();
            c.demand(&more, TABLE, 13);
        }
        for more in ["Z\n", "\n", ",,\n", "Z,1000,1000\nZ,1000,1000\n"] {
            c.demand(&[&file_of(&most)[..], more.as_bytes()].concat(), TABLE, 13);
        }
    }
    for count in [28, 52, 100, 1_000, 10_000, 100_000] {
        let all = all_letters().into_iter().cycle().take(count).collect::<Vec<_>>();
        c.demand(&file_of(&all), TABLE, 13);
        c.demand(&"E,100,199\n".repeat(count).into_bytes(), TABLE, 13);
        c.demand(&vec![b'\n'; count], TABLE, 13);
        c.demand(&vec![b','; count], TABLE, 13);
        c.demand(&vec![b'1'; count], TABLE, 13);
    }
    c.finish(&[0, 13]);
}

/// Some sound files: each byte exchanged by every other, put in before each and at the end, taken out; and cut after
/// each.
#[test]
fn every_byte() {
    let (mut c, mut rng) = (reader(4 * LEAST), Rng::new(0x6279_7465));
    let mut files: Vec<Vec<u8>> = sound_tables()[1..].iter().map(|table| file_of(table.rows())).collect();
    files.extend([b"Q,100,100\n".to_vec(), b"Z,1000,1000\n".to_vec(), file_of(&sound_rows(&mut rng, ROWS))]);
    files.extend((0..4).map(|_| file_of(&sound_rows(&mut rng, 3))));
    for file in files {
        for at in 0..=file.len() {
            for byte in 0..=255 {
                c.agree(&[&file[..at], &[byte], &file[at..]].concat(), TABLE);
                if at < file.len() {
                    c.agree(&[&file[..at], &[byte], &file[at + 1..]].concat(), TABLE);
                }
            }
            let is_whole = at == file.len();
            let ends_a_row = at > 0 && file[at - 1] == b'\n';
            c.demand(&file[..at], TABLE, due(is_whole || ends_a_row));
            if !is_whole {
                c.agree(&[&file[..at], &file[at + 1..]].concat(), TABLE);
            }
        }
    }
    c.finish(&[0, 13]);
}

/// The shortest file with every two of its bytes exchanged by those that a file may have, and by a few others.
#[test]
fn two_bytes() {
    let (mut c, usual) = (reader(45 * 21 * 21), b"0123456789,\nAZ +-\r\0az");
    let file = b"Q,100,100\n";
    for second in 0..file.len() {
        for first in 0..second {
            for pair in 0..usual.len() * usual.len() {
                let mut other = file.to_vec();
                (other[first], other[second]) = (usual[pair % usual.len()], usual[pair / usual.len()]);
                c.agree(&other, TABLE);
            }
        }
    }
    c.finish(&[0, 13]);
}

/// Any two bytes as the letters of two rows: both are from A to Z, and the second is greater.
#[test]
fn every_two_letters() {
    let mut c = reader(65_536);
    for [one, other] in (0..=u16::MAX).map(u16::to_be_bytes) {
        let is_sound = one.is_ascii_uppercase() && other.is_ascii_uppercase() && one < other;
        c.demand(&[&[one][..], b",100,199\n", &[other], b",200,400\n"].concat(), TABLE, due(is_sound));
    }
    c.finish(&[0, 13]);
}

/// Numbers about both ends of the range as low and high volts of a row; and as the high volts of one and the low ones
/// of the next.
#[test]
fn volts() {
    let mut c = reader(50 * 50 * 2);
    let numbers: Vec<u32> = (0..4).chain(90..=110).chain(990..=1_010).chain([9_999, 10_000, 65_536 + 100]).collect();
    for &low in &numbers {
        for &high in &numbers {
            let is_sound = 100 <= low && low <= high && high <= 1_000;
            c.demand(format!("E,{low},{high}\n").as_bytes(), TABLE, due(is_sound));
        }
    }
    for high in 180..230 {
        for low in 180..230 {
            let file = format!("E,100,{high}\nM,{low},400\n");
            c.demand(file.as_bytes(), TABLE, due(high < low));
            let file = format!("A,100,150\nE,170,{high}\nM,{low},400\nN,401,402\n");
            c.demand(file.as_bytes(), TABLE, due(high < low));
        }
    }
    c.finish(&[0, 13]);
}

/// Every row of one volt, and every high volts from 100.
#[test]
fn every_volts() {
    let mut c = reader(2 * 1_100);
    for volts in 0..1_100 {
        c.demand(format!("E,{volts},{volts}\n").as_bytes(), TABLE, due((100..=1_000).contains(&volts)));
        c.demand(format!("E,100,{volts}\n").as_bytes(), TABLE, due((100..=1_000).contains(&volts)));
        c.demand(format!("E,{volts},1000\n").as_bytes(), TABLE, due((100..=1_000).contains(&volts)));
    }
    c.finish(&[0, 13]);
}

/// How 100 and 1000 may be misspelt.
const MISSPELT: [&str; 24] = [
    "0100",
    "00100",
    "+100",
    "-100",
    " 100",
    "100 ",
    "\t100",
    "100\t",
    "100\r",
    "\r100",
    "100.",
    "100.0",
    "1e2",
    "0x64",
    "100\0",
    "\"100\"",
    "1_00",
    "1 00",
    "1,00",
    "",
    "-",
    "+",
    "١00",
    "4294967396",
];

/// Each in each field, in the first row, the last and one between.
#[test]
fn spellings() {
    let mut c = reader(2 * 9 * MISSPELT.len());
    let rows = [["E", "100", "199"], ["M", "200", "400"], ["R", "600", "900"]];
    for (row, field) in (0..3).flat_map(|row| (0..3).map(move |field| (row, field))) {
        for text in MISSPELT {
            for text in [text.to_string(), text.replace("100", rows[row][field])] {
                let mut other = rows;
                other[row][field] = &text;
                let file: String = other.iter().map(|row| row.join(",") + "\n").collect();
                c.demand(file.as_bytes(), TABLE, 13);
            }
        }
    }
    c.finish(&[13]);
}

/// Numbers so long that no number of 32 or of 64 bits holds them: what they are modulo these does not count.
#[test]
fn long_numbers() {
    let mut c = reader(3 * 2 * 60);
    for zeros in 0..60 {
        let long = format!("1{}", "0".repeat(zeros));
        for (file, is_sound) in [
            (format!("E,{long},1000\n"), zeros == 2 || zeros == 3),
            (format!("E,100,{long}\n"), zeros == 2 || zeros == 3),
            (format!("E,{long},{long}\n"), zeros == 2 || zeros == 3),
        ] {
            c.demand(file.as_bytes(), TABLE, due(is_sound));
            c.demand(file.replace('1', "01").as_bytes(), TABLE, 13);
        }
    }
    for more in [1u128 << 8, 1 << 16, 1 << 32, 1 << 64, 10 * (1 << 32), u128::MAX - 1_000] {
        for volts in [100, 199, 1_000] {
            c.demand(format!("E,100,{}\n", more + volts).as_bytes(), TABLE, due(more + volts <= 1_000));
            c.demand(format!("E,{},1000\n", more + volts).as_bytes(), TABLE, due(more + volts <= 1_000));
        }
    }
    c.finish(&[0, 13]);
}

/// Files with a field, a row or a byte other than they were, and noise.
#[test]
fn any_files() {
    let (mut c, mut rng) = (reader(3 * LEAST), Rng::new(0x616E_7966));
    while c.missing() > 0 {
        c.agree(&any_file(&mut rng), TABLE);
        if rng.below(8) == 0 {
            let len = rng.below(400);
            c.demand(&rng.bytes(len), TABLE, 13);
        }
    }
    c.finish(&[0, 13]);
}

/// Every length of the image up to twice the right one, for sound files and broken ones.
#[test]
fn sizes() {
    let mut c = reader(4 * 2 * TABLE);
    let most = file_of(&all_letters());
    for room in 0..=2 * TABLE {
        for (file, is_sound) in [(RAILWAY.as_bytes(), true), (&most, true), (b"", false), (b"E,100,199", false)] {
            c.demand(file, room, if room == TABLE { due(is_sound) } else { 1 });
        }
    }
    c.finish(&[0, 1, 13]);
}

/// What is read does not depend on what was lent, and the rows that are not used are zeros.
#[test]
fn unused_rows() {
    let mut rng = Rng::new(0x756E_7573);
    for count in (1..=ROWS).cycle().take(26 * 20) {
        let rows = sound_rows(&mut rng, count);
        for old in [0x00, 0x5A, 0xFF] {
            let mut image = [old; TABLE];
            assert_eq!(archive::read_table(&file_of(&rows), &mut image), 0);
            let (used, rest) = image.split_at(4 + 12 * count);
            assert_eq!(used[..4], (count as u32).to_le_bytes());
            for (row, bytes) in rows.iter().zip(used[4..].chunks_exact(12)) {
                let Row { letter, low, high } = *row;
                assert_eq!(bytes, [letter, low, high].map(u32::to_le_bytes).concat());
            }
            assert!(rest.iter().all(|&byte| byte == 0), "{count}");
        }
    }
}
