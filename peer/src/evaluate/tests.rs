//! The listed lines, every named formula as each limit, the order of the refusals, and what the random inputs reach.

mod wrong;

use super::cases::{any, good, joined, places, with_field, LISTED, PLAIN};
use super::*;
use crate::formula::cases::{in_pairs, named, of_length};
use crate::line::cases::{handed_out, texts, valid};
use crate::line::write_line;
use crate::rng::Rng;
use crate::table::cases::RAILWAY;
use crate::table::{read_table, BUILT_IN, BUILT_IN_IMAGE};

fn answer(input: &[u8]) -> Result<Vec<u8>, Refusal> {
    handed_out(|out, length| evaluate_line(&BUILT_IN_IMAGE, input, out, length))
}

#[test]
fn listed_lines() {
    for (name, input, wanted) in LISTED {
        assert_eq!(answer(input.as_bytes()), wanted.map(|line| line.as_bytes().to_vec()), "{name}");
    }
}

/// Each named formula as each limit of each kind of line: its fault, or its number where that is in range.
#[test]
fn named_formulas_as_limits() {
    for (line, at, range) in places() {
        let in_range = |number: i64| if range.contains(&number) { Ok(number) } else { Err(5) };
        for (text, gives) in named() {
            let wanted = gives.and_then(in_range).map(|number| with_field(line, at, number.to_string().as_bytes()));
            assert_eq!(answer(&with_field(line, at, text.as_bytes())), wanted, "{text:?} as field {at}");
        }
    }
}

#[test]
fn plain_lines_stay() {
    let mut rng = Rng::new(70);
    for _ in 0..20_000 {
        let line = write_line(&BUILT_IN, &valid(&mut rng)).unwrap();
        assert_eq!(answer(&line), Ok(line));
    }
}

/// What comes out is a profile line, and is evaluated to itself.
#[test]
fn good_lines() {
    let (mut rng, mut shortest, mut longest) = (Rng::new(71), 400, 0);
    for _ in 0..20_000 {
        let input = joined(&good(&mut rng));
        let line = answer(&input).expect("good");
        assert!(read_line(&BUILT_IN, &line).is_ok());
        assert_eq!(answer(&line).as_ref(), Ok(&line));
        (shortest, longest) = (shortest.min(input.len()), longest.max(input.len()));
    }
    assert!(shortest < 50 && longest > 250, "{shortest} {longest}");
}

/// Ends of each range, and what stands beside them, plain and as a formula.
#[test]
fn ranges_of_the_limits() {
    for (line, at, range) in places() {
        let (low, high) = (*range.start(), *range.end());
        for (number, is_in) in [(low - 1, false), (low, true), (high, true), (high + 1, false)] {
            let wanted = if is_in { Ok(with_field(line, at, number.to_string().as_bytes())) } else { Err(5) };
            for text in
                [of_length(number, 64), in_pairs(&of_length(number, 48), 8), format!("0+{}", of_length(number, 12))]
            {
                assert_eq!(answer(&with_field(line, at, text.as_bytes())), wanted, "{text} as field {at}");
            }
        }
    }
}

/// A field other than a limit that breaks its rule comes before a limit that is no formula, whichever both are.
#[test]
fn other_fields_first() {
    for (line, at, _) in places() {
        let count = line.split(',').count();
        for other in (0..count).filter(|other| LIMITS.iter().all(|(limit, _)| limit != other)) {
            for text in texts(other) {
                let with_both = |limit: &str| {
                    let whole = String::from_utf8(with_field(line, at, limit.as_bytes())).unwrap();
                    answer(&with_field(&whole, other, text.as_bytes()))
                };
                let plain = answer(&with_field(line, other, text.as_bytes()));
                let due = |refusal| plain.as_ref().map_or(Err(5), |_| Err(refusal));
                assert_eq!(with_both("1/0"), due(12), "{text:?} as field {other}");
                assert_eq!(with_both(""), due(11), "{text:?} as field {other}");
            }
        }
    }
}

#[test]
fn sizes() {
    let (line, long) = (PLAIN[0].as_bytes(), [b'1'; 401]);
    for room in 0..=168 {
        let (mut out, wanted) = (vec![7; room], if room == 84 { (0, 56) } else { (1, 99) });
        assert_eq!(evaluate_line(&BUILT_IN_IMAGE, line, &mut out, 99), wanted, "{room}");
    }
    assert_eq!([0, 1, 400, 401].map(|len| answer(&long[..len])), [Err(5), Err(5), Err(5), Err(1)]);
    let lengths = LISTED.map(|(name, input, _)| (name, input.len()));
    for wanted in [("the fewest bytes", 41), ("the most bytes", 312), ("the most bytes with a rate", 383)] {
        assert!(lengths.contains(&wanted), "{wanted:?}");
    }
}

/// Class and volts go by the table that is lent, before any formula; a table of another size is 1.
#[test]
fn under_a_table() {
    let table = read_table(RAILWAY.as_bytes()).unwrap().image();
    let of = |table: &[u8], input: &str| handed_out(|out, length| evaluate_line(table, input.as_bytes(), out, length));
    let line = |class: char, volts: u32, limit: &str| {
        format!("GP1,XA,{class},14,{volts},50,{limit},100,800,1500,1500,100,-2500,100\n")
    };
    let railway = [('R', 750, 0), ('R', 600, 0), ('R', 599, 5), ('D', 750, 5), ('M', 500, 5), ('T', 1_000, 0)];
    let built_in = [('D', 750, 0), ('R', 750, 5), ('C', 500, 0), ('B', 230, 0), ('M', 230, 5)];
    let all = railway.map(|case| (table, case)).into_iter().chain(built_in.map(|case| (BUILT_IN_IMAGE, case)));
    for (table, (class, volts, due)) in all {
        let wanted = |refusal: Refusal| if due == 0 { Err(refusal) } else { Err(due) };
        let good = of(&table, &line(class, volts, "N*0+1150"));
        assert_eq!(good, if due == 0 { Ok(line(class, volts, "1150").into_bytes()) } else { Err(due) });
        assert_eq!(of(&table, &line(class, volts, "1/0")), wanted(12), "{class} {volts}");
        assert_eq!(of(&table, &line(class, volts, "")), wanted(11), "{class} {volts}");
    }
    for len in [0, 1, 315, 317, 632] {
        assert_eq!(of(&vec![0; len], &line('D', 750, "1/0")), Err(1), "{len}");
    }
}

/// Every answer comes often among the random inputs: both kinds of 5 too.
#[test]
fn every_answer_comes() {
    let (mut rng, mut counts) = (Rng::new(72), [0; 6]);
    for _ in 0..50_000 {
        let input = any(&mut rng);
        let at = match answer(&input) {
            Ok(_) => 0,
            Err(1) => 1,
            Err(5) if Frame::of(&BUILT_IN, &input).is_err() => 2,
            Err(5) => 3,
            Err(refusal) => usize::from(refusal - 7),
        };
        counts[at] += 1;
    }
    println!("0, 1, 5 for the frame, 5 for a range, 11, 12: {counts:?}");
    let least = [15_000, 500, 5_000, 3_000, 5_000, 1_000];
    assert!(counts.iter().zip(least).all(|(count, least)| *count >= least), "{counts:?}");
}
