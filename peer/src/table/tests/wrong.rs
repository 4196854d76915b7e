//! Wrong readers, and the listed files that show each.

use super::*;

/// Whether a file is taken for sound.
type Reader = fn(&str) -> bool;

/// A reader whose rules of a row and of two rows may be others.
fn sound_by(file: &str, row: fn(&str) -> Option<Row>, follows: fn(&Row, &Row) -> bool) -> bool {
    let Some(text) = file.strip_suffix('\n') else { return false };
    let rows: Option<Vec<Row>> = text.split('\n').map(row).collect();
    rows.is_some_and(|rows| rows.windows(2).all(|pair| follows(&pair[0], &pair[1])))
}

/// A row whose volts may be others: where they are numbers at all.
fn row_by(text: &str, is_letter: fn(u8) -> bool, in_range: fn(u32, u32) -> bool) -> Option<Row> {
    let fields: Vec<&str> = text.split(',').collect();
    let [letter, low, high] = fields[..] else { return None };
    let [letter] = *letter.as_bytes() else { return None };
    let (low, high) = (number(low)?, number(high)?);
    (is_letter(letter) && in_range(low, high)).then_some(Row::new(letter, low, high))
}

fn is_capital(letter: u8) -> bool {
    letter.is_ascii_uppercase()
}

fn in_range(low: u32, high: u32) -> bool {
    100 <= low && low <= high && high <= 1_000
}

fn right(one: &Row, next: &Row) -> bool {
    one.letter < next.letter && one.high < next.low
}

/// With other spellings of a number that Rust reads.
fn spelt_row(text: &str) -> Option<Row> {
    let fields: Vec<&str> = text.split(',').collect();
    let [letter, low, high] = fields[..] else { return None };
    let [letter @ b'A'..=b'Z'] = *letter.as_bytes() else { return None };
    let (low, high) = (low.parse().ok()?, high.parse().ok()?);
    in_range(low, high).then_some(Row::new(letter, low, high))
}

/// What is wrong, and the listed files on which this shows, in their order.
#[rustfmt::skip]
const WRONG: [(&str, Reader, &[&str]); 20] = [
    ("one volt may be in two rows", |file| sound_by(file, row, |one, next| {
        one.letter < next.letter && one.high <= next.low
    }), &["199 in both", "one volt in both", "overlapping in the third row"]),
    ("ranges must not follow on one another", |file| sound_by(file, row, |one, next| {
        one.letter < next.letter && one.high + 1 < next.low
    }), &["the railway", "two rows", "a row of one volt", "the built-in classes", "a row of one volt between"]),
    ("no gaps", |file| sound_by(file, row, |one, next| {
        one.letter < next.letter && one.high + 1 == next.low
    }), &["the railway", "letters far apart", "a gap of one volt"]),
    ("ranges in any order", |file| sound_by(file, row, |one, next| {
        one.letter < next.letter && (one.high < next.low || next.high < one.low)
    }), &["falling volts", "within the first row, after the second"]),
    ("low volts that rise are enough", |file| sound_by(file, row, |one, next| {
        one.letter < next.letter && one.low < next.low
    }), &["199 in both", "one volt in both", "one row in the other", "overlapping in the third row"]),
    ("a letter twice", |file| sound_by(file, row, |one, next| {
        one.letter <= next.letter && one.high < next.low
    }), &["equal letters", "equal letters in the third row"]),
    ("letters in any order", |file| sound_by(file, row, |one, next| {
        one.letter != next.letter && one.high < next.low
    }), &["falling letters", "the first letter again in the third row"]),
    ("letters one after the other", |file| sound_by(file, row, |one, next| {
        one.letter + 1 == next.letter && one.high < next.low
    }), &["the railway", "two rows", "a row of one volt", "letters far apart"]),
    ("low over high", |file| sound_by(file, |text| row_by(text, is_capital, |low, high| {
        NOMINAL_VOLTS.contains(&low) && NOMINAL_VOLTS.contains(&high)
    }), right), &["low over high", "low over high in the second row"]),
    ("low below high", |file| sound_by(file, |text| {
        row_by(text, is_capital, |low, high| in_range(low, high) && low < high)
    }, right), &[
        "a row of one volt", "the shortest file", "the last letter and volts", "letters far apart",
        "a row of one volt between",
    ]),
    ("no least volts", |file| sound_by(file, |text| {
        row_by(text, is_capital, |low, high| low <= high && high <= 1_000)
    }, right), &["99 volts", "0 volts", "99 volts both"]),
    ("no most volts", |file| sound_by(file, |text| {
        row_by(text, is_capital, |low, high| 100 <= low && low <= high)
    }, right), &["1001 volts", "1001 volts both", "10000 volts"]),
    ("volts below 1000", |file| sound_by(file, |text| {
        row_by(text, is_capital, |low, high| in_range(low, high) && high < 1_000)
    }, right), &[
        "the railway", "a row of one volt", "the built-in classes", "all volts in one row",
        "the last letter and volts", "letters far apart",
    ]),
    ("small letters", |file| sound_by(file, |text| {
        row_by(text, |letter| letter.is_ascii_alphabetic(), in_range)
    }, right), &["a small letter"]),
    ("any sign as letter", |file| sound_by(file, |text| row_by(text, |_| true, in_range), right), &[
        "a small letter", "a digit as letter", "what stands before A", "what stands after Z",
    ]),
    ("other spellings of numbers", |file| sound_by(file, spelt_row, right), &[
        "a leading zero", "a plus before low", "a plus before high", "a leading zero in high", "leading zeros in both",
    ]),
    ("the last LF may be missing", |file| parsed(file.as_bytes()).is_some()
        || parsed(format!("{file}\n").as_bytes()).is_some(), &["no LF", "no LF after the second row"]),
    ("CR LF", |file| parsed(file.replace("\r\n", "\n").as_bytes()).is_some(), &[
        "CR LF", "CR LF after the first row",
    ]),
    ("spaces are left aside", |file| parsed(file.replace([' ', '\t'], "").as_bytes()).is_some(), &[
        "a space before low", "a space after the last LF", "a space before the letter", "a space after the letter",
        "a space after low", "a space before high", "a space after high", "a tab before low",
    ]),
    ("empty rows are left aside", |file| {
        let rows: String = file.split_inclusive('\n').filter(|row| *row != "\n").collect();
        rows.is_empty() || parsed(rows.as_bytes()).is_some()
    }, &["two LFs", "an empty file", "an LF alone", "three LFs", "an LF before", "an LF between"]),
];

/// The listed files that this reader takes for what they are not.
fn shown(reader: Reader) -> Vec<&'static str> {
    LISTED.into_iter().filter(|(_, file, is_sound)| reader(file) != *is_sound).map(|(name, ..)| name).collect()
}

/// Each reader that is wrong shows somewhere, and just where it is said to; the right one nowhere.
#[test]
fn wrong_readers_show() {
    assert!(shown(|file| parsed(file.as_bytes()).is_some()).is_empty());
    assert!(shown(|file| sound_by(file, row, right)).is_empty());
    for (name, reader, wanted) in WRONG {
        assert!(shown(reader) == wanted && !wanted.is_empty(), "{name}: {:?}", shown(reader));
    }
}
