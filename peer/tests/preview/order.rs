//! Lines in other orders: the rows stand in one, and so the text is the same.

use crate::compare;
use peer::archive;
use peer::harness::Tally;
use peer::preview::cases::{
    different_triples, permutations, shuffled, sixteen_and_more, EXAMPLE, EXAMPLE_LISTED, LISTED, SIXTEEN,
    SIXTEEN_LISTED,
};
use peer::preview::LISTING;
use peer::rng::Rng;
use peer::table::BUILT_IN_IMAGE;

/// What the proved library lists.
fn listed(input: &str) -> String {
    let mut out = [0; LISTING];
    let (answer, length) = archive::preview(&BUILT_IN_IMAGE, input.as_bytes(), &mut out, 0);
    assert_eq!(answer, 0, "{input}");
    String::from_utf8(out[..length].to_vec()).expect("letters and digits")
}

#[test]
fn listings_written_by_hand() {
    for (name, input, wanted) in LISTED {
        assert_eq!(listed(input), wanted, "{name}");
    }
    assert_eq!(listed(&sixteen_and_more()), SIXTEEN_LISTED.replace("XA,B,50,12\n", "XA,B,50,13\n"));
}

#[test]
fn every_order_of_the_example() {
    let all = permutations(EXAMPLE);
    assert_eq!(all.len(), 24);
    for input in all {
        assert_eq!(listed(&input), EXAMPLE_LISTED, "{input}");
    }
}

#[test]
fn sixteen_profiles_in_any_order() {
    let mut rng = Rng::new(0x7369_7874);
    for _ in 0..500 {
        let input = shuffled(&mut rng, SIXTEEN);
        assert_eq!(listed(&input), SIXTEEN_LISTED, "{input}");
    }
}

/// Other triples each time, some shuffles of them, and with every byte lent beside the independent program's.
#[test]
fn different_triples_in_any_order() {
    let (mut t, mut rng) = (Tally::new("preview, 16 triples in any order"), Rng::new(0x7472_6970));
    for _ in 0..100 {
        let input = different_triples(&mut rng);
        let wanted = listed(&input);
        for _ in 0..5 {
            let other = shuffled(&mut rng, &input);
            assert_eq!(listed(&other), wanted, "{other}");
            compare(&mut t, "16 triples", other.as_bytes(), LISTING);
        }
    }
    t.finish(500, &[0]);
}
