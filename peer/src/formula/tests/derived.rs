//! Every text of a few characters beside all formulas of that length, which are put together from the grammar's lines.

use super::*;
use std::collections::BTreeMap;

/// Texts of one length, each with its value: none where a step of it fails.
type Texts = BTreeMap<String, Option<i64>>;

/// What each line of the grammar derives, by length.
struct Derived {
    numbers: Vec<Texts>,
    atoms: Vec<Texts>,
    products: Vec<Texts>,
    sums: Vec<Texts>,
}

const SMALL: [char; 9] = ['0', '1', 'N', '+', '-', '*', '/', '(', ')'];

/// The longest text that is tried.
const TRIED: usize = 6;

/// Adds a text. None has two readings.
fn add(texts: &mut Texts, text: String, value: Option<i64>) {
    assert!(texts.insert(text.clone(), value).is_none(), "{text} is derived twice");
}

fn worked(left: i64, sign: char, right: i64) -> Option<i64> {
    let result = match sign {
        '+' => left + right,
        '-' => left - right,
        '*' => left * right,
        _ if right == 0 => return None,
        _ => left / right,
    };
    (result.abs() <= 2_000_000_000).then_some(result)
}

/// All of `lefts`, an operator and one of `rights` that have this length together.
fn joined(texts: &mut Texts, lefts: &[Texts], signs: [char; 2], rights: &[Texts], len: usize) {
    for left_len in 1..len - 1 {
        for ((left, a), sign) in lefts[left_len].iter().flat_map(|left| signs.map(|sign| (left, sign))) {
            for (right, b) in &rights[len - 1 - left_len] {
                add(texts, format!("{left}{sign}{right}"), a.zip(*b).and_then(|(a, b)| worked(a, sign, b)));
            }
        }
    }
}

/// The numbers of so many digits 0 and 1 that do not begin with a 0 before others.
fn numbers(len: usize) -> Texts {
    let all = (0..1_u32 << len).map(|bits| format!("{bits:0len$b}"));
    let plain = all.filter(|text| len == 1 || text.starts_with('1'));
    plain.map(|text| (text.clone(), text.parse().ok())).collect()
}

impl Derived {
    /// Everything of up to `most` characters.
    fn up_to(most: usize) -> Derived {
        let none = || vec![Texts::new()];
        let mut all = Derived { numbers: none(), atoms: none(), products: none(), sums: none() };
        for len in 1..=most {
            all.numbers.push(numbers(len));
            let mut atoms = all.numbers[len].clone();
            if len == 1 {
                add(&mut atoms, "N".to_string(), Some(VOLTS.into()));
            }
            if len > 2 {
                all.sums[len - 2].iter().for_each(|(text, value)| add(&mut atoms, format!("({text})"), *value));
            }
            all.atoms.push(atoms);
            let mut products = all.atoms[len].clone();
            joined(&mut products, &all.products, ['*', '/'], &all.atoms, len);
            all.products.push(products);
            let mut sums = all.products[len].clone();
            joined(&mut sums, &all.sums, ['+', '-'], &all.products, len);
            all.sums.push(sums);
        }
        all
    }

    /// The limits of this length: the sums, and plain negative numbers.
    fn limits(&self, len: usize) -> Texts {
        let mut limits = self.sums[len].clone();
        if len > 1 {
            let negative = self.numbers[len - 1].iter().filter(|(_, value)| **value != Some(0));
            negative.for_each(|(text, value)| add(&mut limits, format!("-{text}"), value.map(|value| -value)));
        }
        limits
    }
}

/// Every text of this length over the few characters.
fn texts(len: usize) -> impl Iterator<Item = String> {
    let digit = move |number: usize, at: u32| SMALL[number / SMALL.len().pow(at) % SMALL.len()];
    (0..SMALL.len().pow(len as u32)).map(move |number| (0..len as u32).map(|at| digit(number, at)).collect())
}

#[test]
fn every_short_text() {
    let derived = Derived::up_to(TRIED);
    let mut counts = [0; 3];
    for len in 0..=TRIED {
        let mut limits = derived.limits(len);
        for text in texts(len) {
            let wanted = limits.remove(&text).map_or(Err(11), |value| value.ok_or(12));
            assert_eq!(value(text.as_bytes(), VOLTS), wanted, "{text}");
            assert_eq!(valued(&RIGHT, text.as_bytes(), VOLTS), wanted, "{text}");
            counts[[Ok(()), Err(11), Err(12)].iter().position(|kind| *kind == wanted.map(drop)).expect("one")] += 1;
        }
        assert!(limits.is_empty(), "every limit of {len} characters was tried: {limits:?}");
    }
    println!("every text of up to {TRIED} characters: {counts:?} give a number, 11 and 12");
    assert_eq!(counts.iter().sum::<usize>(), (0..=TRIED as u32).map(|len| 9_usize.pow(len)).sum());
}
