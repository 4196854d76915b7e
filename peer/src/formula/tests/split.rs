//! A plainer way: a text is parted at its last operator that binds least, and both sides are valued alike. Its rules
//! can be bent, to see which wrong programs the named formulas show.

/// What a program may get wrong.
#[derive(Clone, Copy)]
pub struct Rules {
    pub longest: usize,
    pub deepest: usize,
    pub greatest: i64,
    pub leading_zeros: bool,
    pub minus_zero: bool,
    /// A sign may stand before any atom.
    pub signs: bool,
    /// Equals go from right to left.
    pub from_right: bool,
    /// All operators bind alike.
    pub flat: bool,
    /// A quotient is the next lower whole number.
    pub floor: bool,
    /// Only the last result must be in reach.
    pub reach_at_end: bool,
    pub reach: i128,
    /// The first fault from the left decides, of whichever kind.
    pub first_fault: bool,
    /// `N` is 0.
    pub no_volts: bool,
    /// By 0 the quotient is 0.
    pub by_zero: bool,
}

pub const RIGHT: Rules = Rules {
    longest: 64,
    deepest: 8,
    greatest: 1_000_000,
    leading_zeros: false,
    minus_zero: false,
    signs: false,
    from_right: false,
    flat: false,
    floor: false,
    reach_at_end: false,
    reach: 2_000_000_000,
    first_fault: false,
    no_volts: false,
    by_zero: false,
};

fn number(rules: &Rules, text: &[u8]) -> Option<i64> {
    let digits = !text.is_empty() && text.iter().all(u8::is_ascii_digit);
    if !digits || (!rules.leading_zeros && text.len() > 1 && text[0] == b'0') {
        return None;
    }
    let far = |value: i64, digit: &u8| value.saturating_mul(10).saturating_add(i64::from(digit - b'0'));
    Some(text.iter().fold(0, far)).filter(|value| *value <= rules.greatest)
}

fn in_reach(rules: &Rules, result: i128) -> Result<i128, u8> {
    if result.abs() <= rules.reach {
        Ok(result)
    } else {
        Err(12)
    }
}

fn operated(rules: &Rules, sign: u8, a: i128, b: i128) -> Result<i128, u8> {
    let result = match sign {
        b'+' => a.checked_add(b),
        b'-' => a.checked_sub(b),
        b'*' => a.checked_mul(b),
        _ if b == 0 && rules.by_zero => Some(0),
        _ if b == 0 => None,
        _ if rules.floor => Some(a.div_euclid(b) - i128::from(b < 0 && a.rem_euclid(b) > 0)),
        _ => Some(a / b),
    };
    let result = result.ok_or(12)?;
    if rules.reach_at_end {
        return Ok(result);
    }
    in_reach(rules, result)
}

/// Where a text is parted: at an operator of these outside of all parentheses.
fn parting(rules: &Rules, text: &[u8], signs: &[u8]) -> Option<usize> {
    let (mut depth, mut places) = (0, Vec::new());
    for (at, byte) in text.iter().enumerate() {
        depth += i32::from(*byte == b'(') - i32::from(*byte == b')');
        let after_operator = at == 0 || b"+-*/(".contains(&text[at - 1]);
        if depth == 0 && signs.contains(byte) && !(rules.signs && after_operator) {
            places.push(at);
        }
    }
    if rules.from_right {
        return places.first().copied();
    }
    places.last().copied()
}

/// An atom: in parentheses, `N` or a number.
fn atom(rules: &Rules, text: &[u8], volts: u32, depth: usize) -> Result<i128, u8> {
    if let Some(inner) = text.strip_prefix(b"(").and_then(|text| text.strip_suffix(b")")) {
        return if depth < rules.deepest { sum(rules, inner, volts, depth + 1) } else { Err(11) };
    }
    if let Some(rest) = text.strip_prefix(b"-").filter(|_| rules.signs) {
        return atom(rules, rest, volts, depth).map(|value| -value);
    }
    match text {
        b"N" if rules.no_volts => Ok(0),
        b"N" => Ok(volts.into()),
        _ => number(rules, text).map(i128::from).ok_or(11),
    }
}

fn sum(rules: &Rules, text: &[u8], volts: u32, depth: usize) -> Result<i128, u8> {
    let levels: &[&[u8]] = if rules.flat { &[b"+-*/"] } else { &[b"+-", b"*/"] };
    let Some(at) = levels.iter().find_map(|signs| parting(rules, text, signs)) else {
        return atom(rules, text, volts, depth);
    };
    let [left, right] = [&text[..at], &text[at + 1..]].map(|side| sum(rules, side, volts, depth));
    if left == Err(11) || (right == Err(11) && !rules.first_fault) {
        return Err(11);
    }
    operated(rules, text[at], left?, right?)
}

/// What a limit gives by these rules.
pub fn valued(rules: &Rules, text: &[u8], volts: u32) -> Result<i64, u8> {
    if text.len() > rules.longest {
        return Err(11);
    }
    if let Some(digits) = text.strip_prefix(b"-").filter(|_| !rules.signs) {
        let plain = number(rules, digits).filter(|value| *value != 0 || rules.minus_zero);
        return plain.map(|value| -value).ok_or(11);
    }
    in_reach(rules, sum(rules, text, volts, 0)?).map(|value| value as i64)
}
