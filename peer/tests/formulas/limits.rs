//! Formulas as each limit of both kinds of line: named ones, at the bounds, and several faults at once.

use crate::{compare, demand, evaluated};
use peer::evaluate::cases::{joined, places, with_field, Place, PLAIN};
use peer::evaluate::LIMITS;
use peer::formula::cases::{in_pairs, named, of_length, shown_as};
use peer::harness::Tally;
use peer::line::LONGEST;
use peer::rng::Rng;
use peer::table::BUILT_IN;

/// Demands what is due of a line with this limit, by what the limit gives.
fn demand_limit(t: &mut Tally, place: &Place, text: &str, gives: Result<i64, u8>) {
    let (line, at, range) = place;
    let number = gives.and_then(|number| if range.contains(&number) { Ok(number) } else { Err(5) });
    let wanted = number.map(|number| with_field(line, *at, number.to_string().as_bytes()));
    demand(t, &with_field(line, *at, text.as_bytes()), wanted.as_deref().map_err(|refusal| *refusal));
}

/// The worked table and the other named formulas, as each limit.
#[test]
fn named_formulas() {
    let mut t = Tally::new("evaluate_line, named formulas");
    for place in places() {
        named().for_each(|(text, gives)| demand_limit(&mut t, &place, text, gives));
    }
    t.finish(9 * named().count(), &[0, 5, 11, 12]);
}

/// What a named formula gives, brought into the range of each limit, so that the line shows the number. Those that are
/// no atom in parentheses, too deep or too long for more around them are shown elsewhere.
#[test]
fn numbers_that_show() {
    let mut t = Tally::new("evaluate_line, numbers that show");
    let fits = |text: &str| text.len() < 30 && !text.starts_with('-') && !text.starts_with("((((((((");
    for place in places() {
        for (text, gives) in named().filter(|(text, _)| fits(text)) {
            for target in [*place.2.start(), *place.2.end()] {
                if let Ok(value) = gives {
                    demand_limit(&mut t, &place, &shown_as(text, value, target), Ok(target));
                }
            }
        }
    }
    t.finish(9 * 2 * 50, &[0]);
}

/// 64 characters are enough and 65 are too many, whatever a formula gives; eight pairs of parentheses, and nine.
#[test]
fn lengths_and_depths() {
    let mut t = Tally::new("evaluate_line, lengths and depths");
    for place in places() {
        let (low, high) = (*place.2.start(), *place.2.end());
        for target in [low - 1, low, high, high + 1] {
            let mut demand_of = |text: String, is_formula: bool| {
                demand_limit(&mut t, &place, &text, if is_formula { Ok(target) } else { Err(11) });
            };
            for len in 11..=120 {
                demand_of(of_length(target, len), len <= 64);
            }
            for pairs in 0..=20 {
                demand_of(in_pairs(&of_length(target, 12), pairs), pairs <= 8);
                demand_of(format!("1*{}+0", in_pairs(&of_length(target, 12), pairs)), pairs <= 8);
                demand_of("0+1*(".repeat(pairs) + &of_length(target, 12) + &")".repeat(pairs), pairs <= 8);
            }
        }
    }
    t.finish(9 * 4 * 173, &[0, 5, 11]);
}

/// Every number about the ends of each range, plain, as a sum and as a difference.
#[test]
fn ranges() {
    let mut t = Tally::new("evaluate_line, ranges");
    for place in places() {
        let ends = [*place.2.start(), *place.2.end(), 0].map(|end| end - 20..=end + 20);
        for target in ends.into_iter().flatten().chain([1_000_000, -999_000, 65_536 + 1_150]) {
            let parted = format!("1000-{}", 1_000 - target).replace("--", "+");
            for text in [target.to_string(), of_length(target, 20), parted] {
                demand_limit(&mut t, &place, &text, Ok(target));
            }
        }
    }
    t.finish(9 * 126 * 3, &[0, 5]);
}

/// What a limit may be, each with the fault of it: of the formula, or of its number. The first is left as it is.
const SORTS: [(&str, u8); 4] = [("", 0), ("1/0", 12), ("2N", 11), ("1000000", 5)];

/// The line with limits of these sorts.
fn mixed(line: &str, sorts: &[(&str, u8)]) -> Vec<u8> {
    let mut fields: Vec<Vec<u8>> = line.trim_end().split(',').map(|field| field.as_bytes().to_vec()).collect();
    for ((at, _), (text, fault)) in LIMITS.iter().zip(sorts) {
        if *fault > 0 {
            fields[*at] = text.as_bytes().to_vec();
        }
    }
    joined(&fields)
}

/// Every way in which the limits of a line may be good or not: the leftmost fault of a formula decides, wherever a
/// number is out of range.
#[test]
fn every_mixture() {
    let mut t = Tally::new("evaluate_line, limits good and bad");
    for (line, count) in PLAIN.into_iter().zip([4, 5]) {
        for number in 0..SORTS.len().pow(count) {
            let sort = |place: u32| SORTS[number / SORTS.len().pow(place) % SORTS.len()];
            let sorts: Vec<_> = (0..count).map(sort).collect();
            let of_formula = sorts.iter().map(|sort| sort.1).find(|fault| *fault > 5);
            let fault = of_formula.or(sorts.iter().map(|sort| sort.1).find(|fault| *fault == 5));
            demand(&mut t, &mixed(line, &sorts), fault.map_or(Ok(line.as_bytes()), Err));
        }
    }
    t.finish(256 + 1_024, &[0, 5, 11, 12]);
}

/// An empty field as each limit, alone and with others.
#[test]
fn empty_fields() {
    let mut t = Tally::new("evaluate_line, empty fields");
    for (line, at, _) in places() {
        demand(&mut t, &with_field(line, at, b""), Err(11));
        let whole = String::from_utf8(with_field(line, at, b"")).expect("letters and digits");
        for (other, ..) in LIMITS.iter().filter(|(other, _)| *other < line.split(',').count()) {
            demand(&mut t, &with_field(&whole, *other, b""), Err(11));
        }
    }
    t.finish(9 + 16 + 25, &[11]);
}

/// N is the line's own volts, at all that there are.
#[test]
fn every_volts() {
    let mut t = Tally::new("evaluate_line, every volts");
    for volts in 100..=1_000_i64 {
        let class = char::from(BUILT_IN.class_of(volts as u32).expect("100 to 1000"));
        let limits = ["1500-N/2", "1+N/2", "N*5", "0-N", "N*N/100"];
        let [a, b, c, d, e] = limits;
        let input = format!("GP2,XA,{class},14,{volts},50,{a},100,{b},1500,{c},100,{d},100,{e},500\n");
        let (a, b, c, d, e) = (1_500 - volts / 2, 1 + volts / 2, volts * 5, -volts, volts * volts / 100);
        let line = format!("GP2,XA,{class},14,{volts},50,{a},100,{b},1500,{c},100,{d},100,{e},500\n");
        let wanted = if a > 1_000 { Ok(line.as_bytes()) } else { Err(5) };
        demand(&mut t, input.as_bytes(), wanted);
        let input = format!("GP1,XA,{class},14,{volts},50,1150/(N-{volts}),100,800,1500,1500,100,-2500,100\n");
        demand(&mut t, input.as_bytes(), Err(12));
    }
    t.finish(2 * 901, &[0, 5, 12]);
}

/// Every text of up to five characters over a few, as some limit of one of both lines.
#[test]
fn every_short_text() {
    let (mut t, few) = (Tally::new("evaluate_line, short texts"), b"01N+-*/()");
    let (places, mut rng) = (places(), Rng::new(0x7368_6F72));
    for len in 0..=5 {
        for number in 0..few.len().pow(len) {
            let text: Vec<u8> = (0..len).map(|at| few[number / few.len().pow(at) % few.len()]).collect();
            let (line, at, _) = &places[rng.below(places.len())];
            compare(&mut t, &with_field(line, *at, &text), LONGEST);
        }
    }
    t.finish(66_430, &[0, 5, 11, 12]);
}

/// Every byte alone as a limit, before and after a number, and between two.
#[test]
fn every_byte() {
    let mut t = Tally::new("evaluate_line, every byte");
    for (line, at, _) in places() {
        for byte in 0..=255 {
            for text in [&[byte][..], &[byte, b'1'], &[b'1', byte], &[b'1', byte, b'2'], &[b'(', byte, b')']] {
                let answer = evaluated(&mut t, &with_field(line, at, text));
                let is_part = b"0123456789N+-*/(),\n".contains(&byte);
                assert!(is_part || answer == Err(11), "{byte} gives {answer:?}");
            }
        }
    }
    t.finish(9 * 256 * 5, &[0, 5, 11]);
}
