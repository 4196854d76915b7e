//! Formulas to compare on: named ones, and random ones that the grammar derives or just does not.

mod named;

pub use named::{named, VOLTS};

use super::*;
use crate::rng::Rng;

/// What formulas are written with.
pub const ALPHABET: &[u8] = b"0123456789N+-*/()";

/// Numbers at and beside the ends of ranges, and factors of results at the end of the reach.
const NUMBERS: [u32; 20] = [
    0, 1, 2, 9, 10, 99, 100, 999, 1_000, 1_001, 1_999, 2_000, 2_001, 5_000, 10_000, 44_721, 65_536, 999_999, 1_000_000,
    1_000_000,
];

fn some_number(rng: &mut Rng) -> String {
    let numbers = [rng.below(12), rng.below(2_000), rng.below(1_000_001), NUMBERS[rng.below(20)] as usize];
    numbers[rng.below(4)].to_string()
}

/// Something of the grammar with one of these operators between its parts, mostly one or two of them.
fn chain(rng: &mut Rng, operators: [char; 2], part: impl Fn(&mut Rng) -> String) -> String {
    let mut text = part(rng);
    while rng.below(3) == 0 {
        text.push(operators[rng.below(2)]);
        text += &part(rng);
    }
    text
}

/// A sum with at most so many pairs of parentheses around an atom.
fn sum(rng: &mut Rng, depth: usize) -> String {
    let atom = |rng: &mut Rng| match rng.below(8) {
        0 | 1 if depth > 0 => format!("({})", sum(rng, depth - 1)),
        2 | 3 => "N".to_string(),
        _ => some_number(rng),
    };
    chain(rng, ['+', '-'], |rng| chain(rng, ['*', '/'], atom))
}

/// An atom in so many pairs of parentheses, with an operator in some of them.
fn nested(rng: &mut Rng, pairs: usize) -> String {
    (0..pairs).fold(some_number(rng), |text, _| match rng.below(8) {
        0 => format!("({text}-1)"),
        1 => format!("(2*{text})"),
        2 => format!("(N+{text})"),
        _ => format!("({text})"),
    })
}

/// The same sum with more behind it: so many characters, where two more fit at least.
fn lengthened(rng: &mut Rng, mut text: String, len: usize) -> String {
    while text.len() + 1 < len {
        let odd = (len - text.len()) % 2 == 1;
        let more: &[&str] = if odd { &["+10", "-10", "/10"] } else { &["+1", "-1", "*1", "/1", "+N", "-N", "-0"] };
        text += more[rng.below(more.len())];
    }
    text
}

/// Results at and beside both ends of the reach.
const EDGES: [&str; 10] = [
    "1000000*2000",
    "(0-1000000)*2000",
    "44721*44721",
    "44722*(0-44722)",
    "(1000000*666+666667)*3",
    "1000000*1999+1000000",
    "0-1000000*1999-1000000",
    "0-1000000*2000",
    "1000000*2001",
    "(0-4000)*500000",
];

/// A step at the end of the reach, and then one or two more.
fn far(rng: &mut Rng) -> String {
    let more = ["", "+0", "-0", "+1", "-1", "*1", "/1", "/1000", "*2", "+N", "-N", "/N", "+(0-1)", "*(0-1)"];
    let edge = EDGES[rng.below(EDGES.len())].to_string();
    (0..1 + rng.below(2)).fold(edge, |text, _| text + more[rng.below(more.len())])
}

/// Any formula, or what is one but for its depth or its length: plain, grown by the grammar, about eight deep, about 64
/// characters long, or with a step near the end of the reach.
pub fn any(rng: &mut Rng) -> String {
    match rng.below(8) {
        0 => some_number(rng),
        1 => format!("-{}", some_number(rng)),
        2 => {
            let pairs = 6 + rng.below(5);
            nested(rng, pairs)
        }
        3 => {
            let (text, len) = (sum(rng, 3), 62 + rng.below(5));
            lengthened(rng, text, len)
        }
        4 => far(rng),
        _ => sum(rng, 9),
    }
}

/// What adds a number to a sum.
fn signed(number: i64) -> String {
    format!("{}{}", if number < 0 { '-' } else { '+' }, number.abs())
}

/// The formula with more behind it or around it, so that it gives this number; none where there is no such.
fn brought(text: &str, volts: u32, target: i64) -> Option<String> {
    let away = target - value(text.as_bytes(), volts).ok()?;
    let near = away.abs() <= i64::from(GREATEST);
    let text = if near { text.to_string() + &signed(away) } else { format!("0*({text}){}", signed(target)) };
    (value(text.as_bytes(), volts) == Ok(target)).then_some(text)
}

/// A formula that gives this number, which may stand alone. One of eight has about as many characters as it may have,
/// and one as many parentheses.
pub fn aimed(rng: &mut Rng, volts: u32, target: i64) -> String {
    match rng.below(8) {
        0 => of_length(target, LONGEST - rng.below(4)),
        1 => in_pairs(&format!("0{}", signed(target)), DEEPEST),
        _ => brought(&any(rng), volts, target).unwrap_or_else(|| target.to_string()),
    }
}

/// A formula whose last steps fail, if none does before.
pub fn failing(rng: &mut Rng) -> String {
    sum(rng, 3) + ["/0", "/(N-N)", "/(1/2)", "+1000000*1000000", "+1000000*2001"][rng.below(5)]
}

/// One that gives this number and has just so many characters. It begins with a product that is 0, in two lengths, and
/// ends with zeros.
pub fn of_length(target: i64, len: usize) -> String {
    let of_product = |zero: &str| format!("{zero}{}", signed(target));
    let fits = |text: &String| text.len() <= len && (len - text.len()).is_multiple_of(2);
    let text = ["0*1", "0*10"].map(of_product).into_iter().find(fits).expect("enough characters");
    let zeros = (len - text.len()) / 2;
    text + &"-0".repeat(zeros)
}

/// The formula in as many pairs of parentheses.
pub fn in_pairs(text: &str, pairs: usize) -> String {
    format!("{}{text}{}", "(".repeat(pairs), ")".repeat(pairs))
}

/// What gives `target` where `text` gives `value`, and else something other.
pub fn shown_as(text: &str, value: i64, target: i64) -> String {
    let (millions, rest) = (-value / 1_000_000, -value % 1_000_000);
    format!("({text}){}*1000000{}{}", signed(millions), signed(rest), signed(target))
}

/// A text with a byte exchanged, taken out, put in or swapped with another: mostly one that formulas have.
pub fn missed(rng: &mut Rng, text: &[u8]) -> Vec<u8> {
    let mut out = text.to_vec();
    let byte = if rng.below(4) == 0 { rng.below(256) as u8 } else { ALPHABET[rng.below(ALPHABET.len())] };
    if out.is_empty() {
        return vec![byte];
    }
    let (at, other) = (rng.below(out.len()), rng.below(out.len()));
    match rng.below(4) {
        0 => out[at] = byte,
        1 => drop(out.remove(at)),
        2 => out.insert(at, byte),
        _ => out.swap(at, other),
    }
    out
}

/// Bytes that make no sense, mostly few: those of formulas, or any.
pub fn noise(rng: &mut Rng) -> Vec<u8> {
    let len = [rng.below(6), rng.below(20), 60 + rng.below(10)][rng.below(3)];
    match rng.below(4) {
        0 => rng.bytes(len),
        _ => (0..len).map(|_| ALPHABET[rng.below(ALPHABET.len())]).collect(),
    }
}
