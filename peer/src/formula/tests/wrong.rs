//! Wrong programs, and the named formulas that show each.

use super::split::Rules;
use super::*;

/// What is wrong, and the named formulas on which this shows, in their order.
#[rustfmt::skip]
const WRONG: [(&str, Rules, &[&str]); 17] = [
    ("equals from right to left", Rules { from_right: true, ..RIGHT }, &[
        "N*115/100-4", "10-4-3", "100/10/5", "7/2*2", "8-2+3", "12/2*3", "2*7/4", "(0-7)/2*2", "N+N*10/100",
        "(N+23)*1000/N+50", "N*80/100+616", "0-1000000*1999-1000000", "1000000*2001/1000", "0-1000000*2000-1",
        "1000000*2000+1-1", "1000000*2001*0",
    ]),
    ("all operators bind alike", Rules { flat: true, ..RIGHT }, &[
        "2+3*4", "2-3*4", "20-12/4", "1+2*3-8/4", "N+N*10/100",
        "2+1*1*1*1*1*1*1*1*1*1*1*1*1*1*1*1*1*1*1*1*1*1*1*1*1*1*1*1*1*1*10",
    ]),
    ("a quotient is rounded down", Rules { floor: true, ..RIGHT }, &[
        "(0-7)/2", "7/(0-2)", "5/(0-10)", "(0-5)/10", "(0-7)/2*2", "(0-9)/4+1",
    ]),
    ("nine deep", Rules { deepest: 9, ..RIGHT }, &[
        "(((((((((1)))))))))", "(((((((((1/0)))))))))", "1+(((((((((1)))))))))",
        "((((((((1))))))))+(((((((((1)))))))))", "1+(1+(1+(1+(1+(1+(1+(1+(1+(1)))))))))",
    ]),
    ("seven deep", Rules { deepest: 7, ..RIGHT }, &[
        "((((((((1))))))))", "((((((((1))))))))+((((((((1))))))))", "1+(1+(1+(1+(1+(1+(1+(1+(1))))))))",
        "((((((((1/0))))))))",
    ]),
    ("65 characters", Rules { longest: 65, ..RIGHT }, &[
        "100+1+1+1+1+1+1+1+1+1+1+1+1+1+1+1+1+1+1+1+1+1+1+1+1+1+1+1+1+1+1+1",
        "2+1*1*1*1*1*1*1*1*1*1*1*1*1*1*1*1*1*1*1*1*1*1*1*1*1*1*1*1*1*1*100",
        "1/0+1+1+1+1+1+1+1+1+1+1+1+1+1+1+1+1+1+1+1+1+1+1+1+1+1+1+1+1+1+1+1",
    ]),
    ("63 characters", Rules { longest: 63, ..RIGHT }, &[
        "10+1+1+1+1+1+1+1+1+1+1+1+1+1+1+1+1+1+1+1+1+1+1+1+1+1+1+1+1+1+1+1",
        "2+1*1*1*1*1*1*1*1*1*1*1*1*1*1*1*1*1*1*1*1*1*1*1*1*1*1*1*1*1*1*10",
        "10/0+1+1+1+1+1+1+1+1+1+1+1+1+1+1+1+1+1+1+1+1+1+1+1+1+1+1+1+1+1+1",
    ]),
    ("a number of 1000001", Rules { greatest: 1_000_001, ..RIGHT }, &["-1000001", "1000001", "1000001-1"]),
    ("leading zeros", Rules { leading_zeros: true, ..RIGHT }, &[
        "-05", "007", "00", "01", "0000000", "01000000", "1+01", "1*00", "(007)", "1/0+007",
    ]),
    ("-0", Rules { minus_zero: true, ..RIGHT }, &["-0"]),
    ("a minus before any atom", Rules { signs: true, ..RIGHT }, &[
        "-0", "-N", "(-5)", "-5+1", "2*-3", "--5", "-(5)", "-5*1", "1--1", "1+-1",
    ]),
    ("12 before 11 in a formula", Rules { first_fault: true, ..RIGHT }, &["1/0+", "1/0+007", "1000000*2001+"]),
    ("only the last result in reach", Rules { reach_at_end: true, ..RIGHT }, &[
        "1000000*2001/1000", "1000000*2000+1-1", "0*(1000000*2001)", "1000000*2001*0",
    ]),
    ("a reach of 1 more", Rules { reach: 2_000_000_001, ..RIGHT }, &[
        "1000000*2000+1", "(0-1000000)*2000-1", "(1000000*666+666667)*3", "(1000000*666+666667)*(0-3)",
        "0-1000000*2000-1", "1000000*2000-(0-1)", "1000000*1999+1000000+1", "1000000*2000+1-1",
        "(0-1000000)*2000+(0-1)",
    ]),
    ("a reach of 1 less", Rules { reach: 1_999_999_999, ..RIGHT }, &[
        "1000000*2000", "(0-1000000)*2000", "1000000*1999+1000000", "1000000*1999-(0-1000000)",
        "0-1000000*1999-1000000", "0-1000000*2000", "1000000*2000/2000", "1000000*2000/(0-1)", "1000000*2000*1*1",
    ]),
    ("N is 0", Rules { no_volts: true, ..RIGHT }, &[
        "N*115/100-4", "N", "(N)", "0-N", "N*N", "N/N", "N+N*10/100", "(N+23)*1000/N+50", "N*80/100+616", "1/(N-230)",
    ]),
    ("by 0 it is 0", Rules { by_zero: true, ..RIGHT }, &[
        "1/0", "1/(N-230)", "0/0", "N/0", "(1/0)", "1/0*0", "0*(1/0)", "1/(1/2)", "1/(2-2)", "7/(0*5)", "1/0-1/0",
        "((((((((1/0))))))))", "10/0+1+1+1+1+1+1+1+1+1+1+1+1+1+1+1+1+1+1+1+1+1+1+1+1+1+1+1+1+1+1",
    ]),
];

/// The named formulas on which these rules give something else than is due.
fn shown(rules: &Rules) -> Vec<&'static str> {
    let wrong = |(text, due): &(&str, _)| valued(rules, text.as_bytes(), VOLTS) != *due;
    named().filter(wrong).map(|(text, _)| text).collect()
}

/// Each program that is wrong shows somewhere, and just where it is said to; the right one nowhere.
#[test]
fn wrong_programs_show() {
    assert!(shown(&RIGHT).is_empty());
    for (name, rules, wanted) in WRONG {
        assert!(shown(&rules) == wanted && !wanted.is_empty(), "{name}: {:?}", shown(&rules));
    }
}
