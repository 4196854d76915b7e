//! Class tables: which nominal volts make which class. Their files, and the image of 316 bytes that C holds.

use crate::line::number;
use crate::refusal::{Refusal, BAD_SIZE, BAD_TABLE};
use std::ops::RangeInclusive;

/// Rows that a table has at most: one for each letter.
pub const ROWS: usize = 26;

/// Bytes of a row in an image: letter, low volts and high volts, four bytes each.
pub const ROW: usize = 12;

/// Bytes of an image: how many rows are used, and then all of them.
pub const TABLE: usize = 4 + ROWS * ROW;

/// Bytes of a sound file: one row of three-digit volts at least; at most all letters, the last with 1000 volts twice.
pub const SHORTEST_FILE: usize = 10;
pub const LONGEST_FILE: usize = 25 * 10 + 12;

/// What nominal volts may be, under every table.
pub const NOMINAL_VOLTS: RangeInclusive<u32> = 100..=1_000;

/// A row of any numbers, also of such as no file has. Low and high volts both belong to the class.
#[derive(Clone, Copy, PartialEq, Eq, Debug)]
pub struct Row {
    pub letter: u32,
    pub low: u32,
    pub high: u32,
}

impl Row {
    pub const fn new(letter: u8, low: u32, high: u32) -> Row {
        Row { letter: letter as u32, low, high }
    }

    fn holds(&self, volts: u32) -> bool {
        (self.low..=self.high).contains(&volts)
    }
}

/// The rows of a table. None at all are those of the built-in classes.
#[derive(Clone, Default, PartialEq, Eq, Debug)]
pub struct Table(Vec<Row>);

/// The table of the built-in classes, its rows, and its image.
pub static BUILT_IN: Table = Table(Vec::new());
pub const BUILT_IN_ROWS: [Row; 4] =
    [Row::new(b'A', 100, 139), Row::new(b'B', 140, 259), Row::new(b'C', 260, 519), Row::new(b'D', 520, 1_000)];
pub const BUILT_IN_IMAGE: [u8; TABLE] = [0; TABLE];

impl Table {
    pub fn of(rows: &[Row]) -> Table {
        Table(rows.to_vec())
    }

    /// The rows that count.
    pub fn rows(&self) -> &[Row] {
        if self.0.is_empty() {
            &BUILT_IN_ROWS
        } else {
            &self.0
        }
    }

    /// Whether this number is the letter of some row, which need not hold any volts.
    pub fn has_letter(&self, letter: u32) -> bool {
        self.rows().iter().any(|row| row.letter == letter)
    }

    /// The class that nominal volts have: of several rows that hold them the first counts. Where its letter is none
    /// from A to Z, no profile can have it.
    pub fn class_of(&self, volts: u32) -> Option<u8> {
        let row = self.rows().iter().find(|row| row.holds(volts))?;
        let letter = u8::try_from(row.letter).ok().filter(u8::is_ascii_uppercase)?;
        NOMINAL_VOLTS.contains(&volts).then_some(letter)
    }

    /// What an image means: rows past the last one that is used are not looked at.
    pub fn from_image(image: &[u8; TABLE]) -> Table {
        let words: Vec<u32> =
            image.chunks_exact(4).map(|word| u32::from_le_bytes(word.try_into().expect("four bytes"))).collect();
        let used = (words[0] as usize).min(ROWS);
        let rows = words[1..].chunks_exact(3).take(used);
        Table(rows.map(|row| Row { letter: row[0], low: row[1], high: row[2] }).collect())
    }

    /// What bytes that were lent as an image mean: 1 where their size is not an image's.
    pub fn lent(image: &[u8]) -> Result<Table, Refusal> {
        image.try_into().map(Table::from_image).map_err(|_| BAD_SIZE)
    }

    /// The image, with zeros in the rows that are not used.
    pub fn image(&self) -> [u8; TABLE] {
        let mut words = vec![self.0.len() as u32];
        self.0.iter().for_each(|row| words.extend([row.letter, row.low, row.high]));
        words.resize(TABLE / 4, 0);
        words.into_iter().flat_map(u32::to_le_bytes).collect::<Vec<u8>>().try_into().expect("79 numbers")
    }
}

/// A row of a file, without its LF.
fn row(text: &str) -> Option<Row> {
    let fields: Vec<&str> = text.split(',').collect();
    let [letter, low, high] = fields[..] else { return None };
    let [letter @ b'A'..=b'Z'] = *letter.as_bytes() else { return None };
    let (low, high) = (number(low)?, number(high)?);
    let in_range = NOMINAL_VOLTS.contains(&low) && NOMINAL_VOLTS.contains(&high);
    (in_range && low <= high).then_some(Row::new(letter, low, high))
}

/// Whether the second of two rows may stand after the first.
fn rises(pair: &[Row]) -> bool {
    pair[0].letter < pair[1].letter && pair[0].high < pair[1].low
}

/// The table of a file, where it breaks no rule.
fn parsed(file: &[u8]) -> Option<Table> {
    let text = std::str::from_utf8(file).ok()?.strip_suffix('\n')?;
    let rows: Vec<Row> = text.split('\n').map(row).collect::<Option<_>>()?;
    (rows.len() <= ROWS && rows.windows(2).all(rises)).then_some(Table(rows))
}

/// Reads the file of a table: 13 where it breaks a rule.
pub fn read_table(file: &[u8]) -> Result<Table, Refusal> {
    parsed(file).ok_or(BAD_TABLE)
}

pub mod cases;
#[cfg(test)]
mod tests;
