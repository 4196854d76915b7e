//! The worked example, what is skipped, and the order of the rows.

mod order;

use super::cases::{any, named, LISTED};
use super::*;
use crate::rng::Rng;
use crate::table::cases::RAILWAY;
use crate::table::{read_table, BUILT_IN, BUILT_IN_IMAGE};

#[test]
fn the_examples() {
    for (name, input, wanted) in LISTED {
        assert_eq!(listing(&BUILT_IN, input.as_bytes()), wanted, "{name}");
    }
}

/// The listing of the input that is called so.
fn listed(name: &str) -> String {
    let inputs = named(&mut Rng::new(50));
    let (_, input) = inputs.iter().find(|(other, _)| *other == name).expect("a name");
    listing(&BUILT_IN, input)
}

#[test]
fn rows_of_the_named_inputs() {
    let rows = |name: &str| listed(name).lines().count() - 1;
    for name in ["nothing", "no LF", "only LFs", "CR LF", "one line without its LF", "NUL bytes after lines"] {
        assert_eq!(rows(name), 0, "{name}");
    }
    for name in ["16 triples", "17 triples", "40 triples, then the first again"] {
        assert_eq!(rows(name), 16, "{name}");
    }
    assert_eq!(rows("the longest lines, and longer ones"), 2);
    for name in ["both hertz", "both hertz the other way round"] {
        assert_eq!(rows(name), 3, "{name}");
    }
    for name in ["the same lines twice", "the lines the other way round"] {
        assert_eq!(rows(name), 4, "{name}");
    }
}

#[test]
fn the_longest_listing() {
    assert_eq!((HEADER.len(), LISTING), (27, 331));
    for name in ["16 rows of the greatest length", "17 rows of the greatest length"] {
        let whole = listed(name);
        assert_eq!(whole.len(), LISTING, "{name}");
        assert!(whole.lines().skip(1).all(|row| row.len() == 18), "{name}");
    }
}

#[test]
fn the_other_hertz_as_a_17th_triple() {
    let whole = listed("a 17th triple that is the other hertz of the first");
    let rows: Vec<&str> = whole.lines().skip(1).collect();
    assert!(rows.len() == 16 && rows[0].ends_with(",50,2") && rows[1..].iter().all(|row| row.ends_with(",50,1")));
}

#[test]
fn an_input_may_have_65536_bytes() {
    for (name, input) in named(&mut Rng::new(51)) {
        assert_eq!(listing(&BUILT_IN, &input) == TOO_LONG, input.len() > 65_536, "{name}");
    }
    assert_eq!(listing(&BUILT_IN, &[b'\n'; 65_536]), HEADER);
    assert_eq!(listing(&BUILT_IN, &[b'\n'; 65_537]), TOO_LONG);
}

#[test]
fn the_last_of_65536_bytes_counts() {
    let inputs = named(&mut Rng::new(53));
    let (_, input) = inputs.iter().find(|(name, _)| name.ends_with("the last line good")).expect("a name");
    assert!(input.len() == 65_536 && listing(&BUILT_IN, input).contains("XA,B,50,12\n"));
    assert!(!listing(&BUILT_IN, &input[..65_535]).contains("XA,B,50,12\n"));
}

#[test]
fn a_listing_fits() {
    let mut rng = Rng::new(52);
    for _ in 0..300 {
        let (mut out, input) = ([0; LISTING], any(&mut rng));
        let (answer, length) = preview(&BUILT_IN_IMAGE, &input, &mut out, 0);
        assert!(answer == 0 && out[..length] == *listing(&BUILT_IN, &input).as_bytes());
    }
    assert_eq!(preview(&BUILT_IN_IMAGE, b"", &mut [0; LISTING + 1], 3), (1, 3));
}

/// Lines are read under the table that is lent, and their letters order the rows; a table of another size is 1.
#[test]
fn under_a_table() {
    let line = |class: char, volts: u32| format!("GP1,XA,{class},7,{volts},50,1150,100,800,1500,1500,100,-2500,100\n");
    let all = [('T', 950), ('R', 750), ('D', 750), ('M', 500), ('M', 230), ('B', 230), ('E', 100), ('A', 100)];
    let input: String = all.map(|(class, volts)| line(class, volts)).concat();
    let table = read_table(RAILWAY.as_bytes()).unwrap();
    for (table, letters) in [(&table, "EMRT"), (&BUILT_IN, "ABD")] {
        let rows: String = letters.chars().map(|letter| format!("XA,{letter},50,7\n")).collect();
        assert_eq!(listing(table, input.as_bytes()), HEADER.to_string() + &rows);
    }
    for len in [0, 1, 315, 317, 632] {
        assert_eq!(preview(&vec![0; len], b"", &mut [0; LISTING], 3), (1, 3), "{len}");
    }
}
