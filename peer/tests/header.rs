//! The constants of the C headers are the sizes and numbers of the independent program.

use peer::bits::{packed_size, EXPONENT, VALUE};
use peer::evaluate;
use peer::line::{self, Kind, Profile, Rate, Trip};
use peer::preview;
use peer::refusal;
use peer::sizes::{Sizes, CATEGORY_1, CATEGORY_3, CATEGORY_5};
use peer::store;
use peer::table::{self, Row, Table};
use std::collections::BTreeMap;

const HEADER: &str = include_str!("../../include/gridprofile.h");
const HEADER_3: &str = include_str!("../../include/gridprofile_category3.h");
const HEADER_5: &str = include_str!("../../include/gridprofile_category5.h");
const CHANGES: &str = include_str!("../../CHANGELOG.md");

/// The defined names that stand for a plain number.
fn constants(header: &str) -> BTreeMap<String, usize> {
    let define = |line: &str| {
        let mut words = line.strip_prefix("#define GRIDPROFILE_")?.split_whitespace();
        Some((words.next()?.to_string(), words.next()?.parse().ok()?))
    };
    header.lines().filter_map(define).collect()
}

/// A profile whose image has no byte but that of a used slot.
const NOTHING: Profile = {
    let trip = Trip { kind: Kind::Share, limit: 0, delay: 0 };
    Profile { country: [0; 2], class: 0, serial: 0, volts: 0, hertz: 0, trips: [trip; 4], rate: None }
};

/// Where the images of two profiles first differ.
fn differ_at(one: &Profile, other: &Profile) -> usize {
    let mut pairs = line::image(one).into_iter().zip(line::image(other));
    pairs.position(|(old, new)| old != new).expect("a field of the image")
}

/// Where the image of a profile first differs, when the profile is changed so.
fn changes_at(change: impl Fn(&mut Profile)) -> usize {
    let mut profile = NOTHING;
    change(&mut profile);
    differ_at(&NOTHING, &profile)
}

/// A profile with nothing but a rate point.
fn with_rate(limit: u32, delay: u32) -> Profile {
    Profile { rate: Some(Rate { limit, delay }), ..NOTHING }
}

/// Where the trip points of an image begin.
fn trips() -> [usize; 4] {
    [0, 1, 2, 3].map(|at| changes_at(|p| p.trips[at] = Trip { kind: Kind::Below, limit: 1, delay: 1 }))
}

/// Where the fields of an image stand, as the second program writes it.
fn offsets() -> Vec<(&'static str, usize)> {
    let [over_voltage, under_voltage, over_frequency, under_frequency] = trips();
    vec![
        ("USED_OFFSET", line::image(&NOTHING).into_iter().position(|byte| byte != 0).expect("used")),
        ("COUNTRY_OFFSET", changes_at(|p| p.country[0] = 1)),
        ("CLASS_OFFSET", changes_at(|p| p.class = 1)),
        ("SERIAL_OFFSET", changes_at(|p| p.serial = 1)),
        ("VOLTS_OFFSET", changes_at(|p| p.volts = 1)),
        ("HERTZ_OFFSET", changes_at(|p| p.hertz = 1)),
        ("OVER_VOLTAGE_OFFSET", over_voltage),
        ("UNDER_VOLTAGE_OFFSET", under_voltage),
        ("OVER_FREQUENCY_OFFSET", over_frequency),
        ("UNDER_FREQUENCY_OFFSET", under_frequency),
        ("RATE_OFFSET", differ_at(&NOTHING, &with_rate(0, 0))),
        ("TRIP_BYTES", under_voltage - over_voltage),
        ("TRIP_KIND_OFFSET", changes_at(|p| p.trips[0].kind = Kind::Below) - over_voltage),
        ("TRIP_LIMIT_OFFSET", changes_at(|p| p.trips[0].limit = 1) - over_voltage),
        ("TRIP_DELAY_OFFSET", changes_at(|p| p.trips[0].delay = 1) - over_voltage),
        ("KIND_SHARE", Kind::Share as usize),
        ("KIND_ABOVE", Kind::Above as usize),
        ("KIND_BELOW", Kind::Below as usize),
        ("RATE_ABSENT", usize::from(line::image(&NOTHING)[line::RATE])),
        ("RATE_PRESENT", usize::from(line::image(&with_rate(0, 0))[line::RATE])),
    ]
}

/// Where the image of a table first differs, when one of its rows is changed so, or where a row more is used.
fn table_changes_at(one: &[Row], other: &[Row]) -> usize {
    let mut pairs = Table::of(one).image().into_iter().zip(Table::of(other).image());
    pairs.position(|(old, new)| old != new).expect("a part of the image")
}

/// Where the parts of a table's image stand, as the second program writes it.
fn table_offsets() -> Vec<(&'static str, usize)> {
    let zero = Row { letter: 0, low: 0, high: 0 };
    let [class, low, high] = [Row { letter: 1, ..zero }, Row { low: 1, ..zero }, Row { high: 1, ..zero }];
    let [first, second] = [[class, zero], [zero, class]].map(|rows| table_changes_at(&[zero, zero], &rows));
    vec![
        ("TABLE_USED_OFFSET", table_changes_at(&[], &[zero])),
        ("TABLE_ROWS_OFFSET", first),
        ("ROW_BYTES", second - first),
        ("ROW_CLASS_OFFSET", table_changes_at(&[zero], &[class]) - first),
        ("ROW_LOW_OFFSET", table_changes_at(&[zero], &[low]) - first),
        ("ROW_HIGH_OFFSET", table_changes_at(&[zero], &[high]) - first),
    ]
}

/// The newest version that the changelog names.
fn version() -> &'static str {
    let named = CHANGES.lines().find_map(|line| line.strip_prefix("## ")).expect("a heading");
    named.split_whitespace().next().expect("a version")
}

/// The three numbers of that version.
fn version_numbers() -> Vec<(&'static str, usize)> {
    let numbers = version().split('.').map(|number| number.parse().expect("a number"));
    ["VERSION_MAJOR", "VERSION_MINOR", "VERSION_PATCH"].into_iter().zip(numbers).collect()
}

/// What the header of each category has.
fn sizes_of(s: &Sizes) -> [(&'static str, usize); 19] {
    [
        ("PLACES", s.n),
        ("MATRIX_VALUES", s.matrix()),
        ("ROUNDS", s.t),
        ("ONES", s.w),
        ("PRIVATE_SEED_BYTES", s.key_seed),
        ("MASTER_SEED_BYTES", s.round_seed),
        ("SALT_BYTES", s.salt),
        ("DIGEST_BYTES", s.digest),
        ("KEY_BYTES", s.key()),
        ("SIGNATURE_BYTES", s.signature()),
        ("REPLY_0_BYTES", s.reply(0)),
        ("REPLY_1_BYTES", s.reply(1)),
        ("PACKAGE_MIN_BYTES", s.signature() + line::SHORTEST),
        ("PACKAGE_MAX_BYTES", s.signature() + line::LONGEST),
        ("MATRIX_BLOCK_BYTES", s.matrix_block),
        ("EXPONENTS_BLOCK_BYTES", s.exponents_block),
        ("MASK_VALUES_BLOCK_BYTES", s.mask_values_block),
        ("FIRST_CHALLENGES_BLOCK_BYTES", s.first_challenges_block),
        ("SECOND_CHALLENGE_BLOCK_BYTES", s.second_challenge_block),
    ]
}

/// What each constant of the first header must be; the answers in their order.
fn expected() -> BTreeMap<String, usize> {
    let sizes = [
        ("MESSAGE_MAX_BYTES", CATEGORY_1.message),
        ("LINE_MIN_BYTES", line::SHORTEST),
        ("LINE_MAX_BYTES", line::LONGEST),
        ("FORMULA_LINE_MAX_BYTES", evaluate::LONGEST_INPUT),
        ("PROFILE_IMAGE_BYTES", line::IMAGE),
        ("PREVIEW_MAX_BYTES", preview::LONGEST_INPUT),
        ("LISTING_BYTES", preview::LISTING),
        ("STORE_IMAGE_BYTES", store::STORE),
        ("STORE_SLOTS", store::CAPACITY),
        ("STORE_TABLE_OFFSET", store::SLOTS),
        ("TABLE_ROWS", table::ROWS),
        ("TABLE_FILE_MIN_BYTES", table::SHORTEST_FILE),
        ("TABLE_FILE_MAX_BYTES", table::LONGEST_FILE),
        ("TABLE_IMAGE_BYTES", table::TABLE),
        ("NEAREST_VOLTS_MAX", store::MEASURED_MAX as usize),
        ("NEAREST_REACH", store::REACH as usize),
        ("BAD_SIZE", usize::from(refusal::BAD_SIZE)),
        ("SHORT_DRAW", usize::from(refusal::SHORT_DRAW)),
        ("BAD_FIELD", usize::from(refusal::BAD_FIELD)),
        ("MISMATCH", usize::from(refusal::MISMATCH)),
        ("BAD_FORMULA", usize::from(refusal::BAD_FORMULA)),
        ("BAD_STEP", usize::from(refusal::BAD_STEP)),
        ("BAD_TABLE", usize::from(refusal::BAD_TABLE)),
        ("STORE_IN_USE", usize::from(refusal::STORE_IN_USE)),
    ];
    let later = ["BAD_PROFILE", "OTHER_DEVICE", "OLD_SERIAL", "STORE_FULL", "NOT_STORED", "BAD_DEVICE"];
    let later = later.into_iter().zip(5..);
    let all = [("DONE", 0)].into_iter().chain(sizes).chain(sizes_of(&CATEGORY_1)).chain(later);
    let all = all.chain(offsets()).chain(table_offsets()).chain(version_numbers());
    all.map(|(name, x)| (name.to_string(), x)).collect()
}

#[test]
fn constants_of_the_header() {
    assert_eq!(constants(HEADER), expected());
}

/// The rate point has its limit and its delay where every trip point has them, and is the last.
#[test]
fn numbers_of_the_rate_point() {
    let [rate, bytes] = ["RATE_OFFSET", "TRIP_BYTES"].map(|name| constants(HEADER)[name]);
    let [limit, delay] = ["TRIP_LIMIT_OFFSET", "TRIP_DELAY_OFFSET"].map(|name| rate + constants(HEADER)[name]);
    assert_eq!(differ_at(&with_rate(0, 0), &with_rate(1, 0)), limit);
    assert_eq!(differ_at(&with_rate(0, 0), &with_rate(0, 1)), delay);
    assert_eq!(rate + bytes, constants(HEADER)["PROFILE_IMAGE_BYTES"]);
}

/// Beside its guard, a category's header defines its sizes and nothing else. The longest message is that
/// of category 1, so that it needs none of its own.
#[test]
fn constants_of_the_categories() {
    for (number, header, s) in [(3, HEADER_3, CATEGORY_3), (5, HEADER_5, CATEGORY_5)] {
        let named = |(name, size): (&str, usize)| (format!("CATEGORY{number}_{name}"), size);
        let wanted: BTreeMap<_, _> = sizes_of(&s).into_iter().map(named).collect();
        assert_eq!(constants(header), wanted);
        let defined = header.lines().filter(|line| line.trim_start().starts_with("#define")).count();
        assert_eq!(defined, sizes_of(&s).len() + 1, "definitions of category {number}");
        assert!(header.contains("#include \"gridprofile.h\""));
        assert_eq!(s.message, CATEGORY_1.message);
    }
}

/// The version as text is that of the changelog, and so are its three numbers.
#[test]
fn version_of_the_header() {
    let text = format!("#define GRIDPROFILE_VERSION \"{}\"", version());
    assert_eq!(HEADER.lines().filter(|line| **line == text).count(), 1);
    let numbers = version_numbers();
    assert_eq!(numbers.len(), 3);
    let joined: Vec<_> = numbers.iter().map(|(name, _)| constants(HEADER)[*name].to_string()).collect();
    assert_eq!(joined.join("."), version());
}

/// The header's two formulas for packed sizes, written so that no product overflows.
#[test]
fn packed_sizes_of_the_header() {
    assert!(HEADER.contains("PACKED_VALUES_BYTES(count) ((count) - (count) / 8)"));
    assert!(HEADER.contains("PACKED_EXPONENTS_BYTES(count) ((count) / 8 * 3 + ((count) % 8 * 3 + 7) / 8)"));
    for count in 0..2000 {
        assert_eq!(count - count / 8, packed_size(VALUE.width, count));
        assert_eq!(count / 8 * 3 + (count % 8 * 3).div_ceil(8), packed_size(EXPONENT.width, count));
    }
}
