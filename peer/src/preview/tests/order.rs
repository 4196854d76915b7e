//! The rows stand in one order, whatever the order of the lines.

use super::*;
use crate::preview::cases::{
    different_triples, permutations, shuffled, sixteen_and_more, written, EXAMPLE, EXAMPLE_LISTED, SIXTEEN,
    SIXTEEN_LISTED, TWO_CLASSES,
};
use std::cmp::Reverse;
use std::collections::BTreeSet;

/// What orders a row, as its text shows it: both letters of the country, the class, both digits of the hertz.
fn shown_place(row: &str) -> [u8; 5] {
    let text = row.as_bytes();
    [text[0], text[1], text[3], text[5], text[6]]
}

/// Whether each row stands above the one before it, which says too that no triple comes twice.
fn ascends(listing: &str) -> bool {
    let places: Vec<_> = listing.lines().skip(1).map(shown_place).collect();
    places.windows(2).all(|pair| pair[0] < pair[1])
}

#[test]
fn rows_ascend() {
    let mut rng = Rng::new(54);
    let mut inputs = named(&mut rng);
    inputs.extend((0..2_000).map(|_| ("any", any(&mut rng))));
    for (name, input) in inputs {
        assert!(ascends(&listing(&BUILT_IN, &input)), "{name}: {}", String::from_utf8_lossy(&input));
    }
}

#[test]
fn every_order_of_the_example() {
    let all: BTreeSet<String> = permutations(EXAMPLE).into_iter().collect();
    assert_eq!(all.len(), 24);
    for input in all {
        assert_eq!(listing(&BUILT_IN, input.as_bytes()), EXAMPLE_LISTED, "{input}");
    }
}

#[test]
fn sixteen_profiles_in_any_order() {
    for name in ["16 profiles in ascending order", "16 profiles in any order"] {
        assert_eq!(listed(name), SIXTEEN_LISTED, "{name}");
    }
    let mut rng = Rng::new(55);
    for _ in 0..300 {
        let input = shuffled(&mut rng, SIXTEEN);
        assert_eq!(listing(&BUILT_IN, input.as_bytes()), SIXTEEN_LISTED, "{input}");
    }
}

#[test]
fn different_triples_in_any_order() {
    let mut rng = Rng::new(56);
    for _ in 0..50 {
        let input = different_triples(&mut rng);
        let wanted = listing(&BUILT_IN, input.as_bytes());
        assert!(wanted.lines().count() == 17 && ascends(&wanted), "{wanted}");
        for _ in 0..10 {
            let other = shuffled(&mut rng, &input);
            assert_eq!(listing(&BUILT_IN, other.as_bytes()), wanted, "{other}");
        }
    }
}

/// Where 16 are stored, a 17th triple is refused though its row would be the first; a newer profile has the row of the
/// one that it replaces.
#[test]
fn after_sixteen_profiles() {
    let wanted = SIXTEEN_LISTED.replace("XA,B,50,12\n", "XA,B,50,13\n");
    assert_eq!(listing(&BUILT_IN, sixteen_and_more().as_bytes()), wanted);
}

/// Brings rows, which come as they are stored, into some order; it may look at the input too.
type Order = fn(&str, &mut [Profile]);

fn text(profile: &Profile) -> String {
    profile.serial.to_string()
}

/// Orders that are wrong, and the inputs of `LISTED` on which this shows: a sign for each of them, x where it does.
const WRONG: [(&str, &str, Order); 13] = [
    ("class before country", "xx..xx.x...x", |_, rows| rows.sort_by_key(|p| (p.class, p.country, p.hertz))),
    ("hertz before class", "xx.xxx.....x", |_, rows| rows.sort_by_key(|p| (p.country, p.hertz, p.class))),
    ("hertz before country", "xx.xxx.....x", |_, rows| rows.sort_by_key(|p| (p.hertz, p.country, p.class))),
    ("second letter first", "......x....x", |_, rows| {
        rows.sort_by_key(|p| (p.country[1], p.country, p.class, p.hertz))
    }),
    ("country descending", "xx..xxxx..xx", |_, rows| rows.sort_by_key(|p| (Reverse(p.country), p.class, p.hertz))),
    ("class descending", "xxxxxx.....x", |_, rows| rows.sort_by_key(|p| (p.country, Reverse(p.class), p.hertz))),
    ("hertz descending", "xx.xxx..xx.x", |_, rows| rows.sort_by_key(|p| (p.country, p.class, Reverse(p.hertz)))),
    ("as the triples came", "xx.xxxxxx.xx", |_, _| ()),
    ("as the profiles came", "xx.xxxxxx.xx", |input, rows| rows.sort_by_key(|p| input.find(&written(p)))),
    ("serial", "xxxxxxxxx.xx", |_, rows| rows.sort_by_key(|p| p.serial)),
    ("serial's text", "xx..xxxx.xxx", |_, rows| rows.sort_by_key(text)),
    ("serial before hertz", "xx.xxx..x..x", |_, rows| rows.sort_by_key(|p| (p.country, p.class, p.serial))),
    ("serial's text before hertz", "xx..xx...x.x", |_, rows| rows.sort_by_key(|p| (p.country, p.class, text(p)))),
];

/// The listing with its rows in another order.
fn listing_in(order: Order, input: &str) -> String {
    let mut rows = stored(&BUILT_IN, input.as_bytes()).profiles().to_vec();
    order(input, &mut rows);
    rows_of(&rows)
}

/// The sign of an input in an order.
fn sign(order: Order, input: &str, listing: &str) -> char {
    if listing_in(order, input) == listing {
        '.'
    } else {
        'x'
    }
}

/// Each order that is wrong shows somewhere, and just where it is said to.
#[test]
fn wrong_orders_show() {
    for (name, wanted, order) in WRONG {
        let signs: String = LISTED.iter().map(|(_, input, listing)| sign(order, input, listing)).collect();
        assert!(signs == wanted && signs.contains('x'), "{name}: {signs}");
    }
}

#[test]
fn two_classes_at_both_hertz_tell_orders_apart() {
    let names = ["class before country", "hertz before class", "hertz descending"];
    let wrong = WRONG.iter().filter(|(name, ..)| names.contains(name));
    let wrong = wrong.map(|(.., order)| listing_in(*order, TWO_CLASSES));
    let all: BTreeSet<String> = wrong.chain([listing(&BUILT_IN, TWO_CLASSES.as_bytes())]).collect();
    assert_eq!(all.len(), 4);
}
