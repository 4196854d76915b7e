//! Class tables through C, beside the independent program: files read and offered to stores, lines and packages under
//! tables, loads, lookups and the nearest profile in stores that have one, and images of any bytes as tables and as
//! stores.

mod any_stores;
mod any_tables;
mod files;
mod lines;
mod offers;
mod packages;
mod pairs;
mod runs;
mod sizes;
mod stores;
mod under;

use peer::line::{image, Profile, IMAGE};
use peer::store::{Device, SLOTS};
use peer::table::cases::{all_letters, RAILWAY};
use peer::table::{Row, Table, BUILT_IN_ROWS, TABLE};

/// A table of one row, with gaps on both sides.
pub const ONE_ROW: [Row; 1] = [Row::new(b'Q', 220, 240)];

/// The built-in classes but for their letters and for one end.
pub const SHIFTED: [Row; 4] =
    [Row::new(b'B', 100, 140), Row::new(b'C', 141, 259), Row::new(b'D', 260, 519), Row::new(b'E', 520, 999)];

pub fn railway() -> Table {
    let rows =
        [Row::new(b'E', 100, 199), Row::new(b'M', 200, 400), Row::new(b'R', 600, 900), Row::new(b'T', 950, 1_000)];
    Table::of(&rows)
}

/// Sound tables of 0, 1, 4 and 26 rows. The first is that of the built-in classes, and the second has them as a file.
pub fn sound_tables() -> [Table; 6] {
    let all = [&[][..], &BUILT_IN_ROWS, &ONE_ROW, railway().rows(), &SHIFTED, &all_letters()].map(Table::of);
    assert_eq!(peer::table::cases::file_of(all[3].rows()), RAILWAY.as_bytes());
    all
}

/// The number at a place of an image.
fn number(image: &[u8], at: usize) -> u32 {
    u32::from_le_bytes([image[at], image[at + 1], image[at + 2], image[at + 3]])
}

/// The rows of an image that count, found in another way than the second program does.
fn rows(image: &[u8; TABLE]) -> Vec<[u32; 3]> {
    let row = |at: usize| [0, 4, 8].map(|part| number(image, 4 + 12 * at + part));
    match number(image, 0) {
        0 => vec![[65, 100, 139], [66, 140, 259], [67, 260, 519], [68, 520, 1_000]],
        used => (0..26).filter(|&at| (at as u64) < u64::from(used)).map(row).collect(),
    }
}

/// Whether class and volts of a profile agree under an image: the first row that holds the volts has this letter, which
/// is one from A to Z, and the volts are a line's.
pub fn agree(image: &[u8; TABLE], class: u8, volts: u32) -> bool {
    let holding = rows(image).into_iter().rev().filter(|[_, low, high]| *low <= volts && volts <= *high);
    let first = holding.last().map(|[letter, ..]| letter);
    b"ABCDEFGHIJKLMNOPQRSTUVWXYZ".contains(&class) && first == Some(u32::from(class)) && (100..=1_000).contains(&volts)
}

/// Whether a number is the letter of a row that counts.
pub fn is_letter(image: &[u8; TABLE], class: u32) -> bool {
    rows(image).iter().any(|[letter, ..]| *letter == class)
}

/// The image of a store with these profiles in its first slots, and this table.
pub fn store_with(table: &[u8; TABLE], profiles: &[Profile]) -> Vec<u8> {
    let mut bytes: Vec<u8> = profiles.iter().flat_map(image).collect();
    bytes.resize(SLOTS, 0);
    bytes.extend(table);
    bytes
}

/// The slots of a store.
pub fn slots_mut(bytes: &mut [u8]) -> impl Iterator<Item = &mut [u8]> {
    bytes[..SLOTS].chunks_exact_mut(IMAGE)
}

/// The line of a profile, whatever rules it breaks.
pub fn line_of(profile: &Profile) -> Vec<u8> {
    peer::line::cases::joined(&peer::line::cases::fields(profile))
}

/// A device of the country `XA` at 50 hertz.
pub fn xa(class: u32) -> Device<'static> {
    Device { country: b"XA", class, hertz: 50 }
}

/// The usual profile of `XA` at 50 hertz, with this class, volts and serial.
pub fn usual(class: u8, volts: u32, serial: u32) -> Profile {
    let line = b"GP1,XA,B,12,230,50,1150,100,800,1500,1500,100,-2500,100\n";
    let base = peer::line::read_line(&peer::table::BUILT_IN, line).expect("a line");
    Profile { class, volts, serial, ..base }
}
