//! The formulas that limits are written as. A shunting yard brings a field into postfix order; nothing is worked out
//! before all of it is read.

use crate::line::number;
use crate::refusal::{demand, Refusal, BAD_FORMULA, BAD_STEP};
use std::str::from_utf8;

/// The most characters of a formula, and the most pairs of parentheses around an atom.
pub const LONGEST: usize = 64;
pub const DEEPEST: usize = 8;

/// The greatest number that a formula may name.
pub const GREATEST: u32 = 1_000_000;

/// How far from 0 the result of an operation may be.
pub const REACH: i64 = 2_000_000_000;

#[derive(Clone, Copy)]
enum Token {
    Number(i64),
    /// `N`, the nominal volts of the line.
    Volts,
    /// An operator or a parenthesis.
    Sign(u8),
}

/// A number as formulas have it.
fn named(digits: &[u8]) -> Option<i64> {
    number(from_utf8(digits).ok()?).filter(|&number| number <= GREATEST).map(i64::from)
}

/// The first token of a text, and what comes after it. Digits that touch are one number.
fn first(text: &[u8]) -> Option<(Token, &[u8])> {
    let digits = text.iter().take_while(|byte| byte.is_ascii_digit()).count();
    let (front, rest) = text.split_at_checked(digits.max(1))?;
    let token = match front[0] {
        b'0'..=b'9' => Token::Number(named(front)?),
        b'N' => Token::Volts,
        sign @ (b'+' | b'-' | b'*' | b'/' | b'(' | b')') => Token::Sign(sign),
        _ => return None,
    };
    Some((token, rest))
}

/// How strongly an operator binds. A parenthesis binds nothing.
fn binding(sign: u8) -> u8 {
    match sign {
        b'*' | b'/' => 2,
        b'+' | b'-' => 1,
        _ => 0,
    }
}

/// A formula on its way into postfix order.
#[derive(Default)]
struct Yard {
    /// What has its place: atoms, and each operator after both of its operands.
    placed: Vec<Token>,
    /// Operators that wait for their right operand, and parentheses that are open.
    waiting: Vec<u8>,
    /// Whether an atom has just ended. Two never touch, and else there must be one: this alone keeps the yard, which
    /// would order anything, to the grammar.
    after_atom: bool,
}

impl Yard {
    /// Places the operators on top that bind at least so strongly.
    fn release(&mut self, least: u8) {
        while let Some(sign) = self.waiting.last().copied().filter(|&sign| binding(sign) >= least) {
            self.waiting.pop();
            self.placed.push(Token::Sign(sign));
        }
    }

    fn open(&mut self) -> Option<()> {
        self.waiting.push(b'(');
        let depth = self.waiting.iter().filter(|&&sign| sign == b'(').count();
        (depth <= DEEPEST).then_some(())
    }

    /// Without its operators the top is the last parenthesis that is open, or there is none.
    fn close(&mut self) -> Option<()> {
        self.release(1);
        self.waiting.pop().map(drop)
    }

    /// What binds as strongly and came before goes first: equals go from left to right.
    fn operator(&mut self, sign: u8) {
        self.release(binding(sign));
        self.waiting.push(sign);
    }

    /// Takes the next token, where one of its kind may stand.
    fn take(&mut self, token: Token) -> Option<()> {
        let begins_atom = matches!(token, Token::Number(_) | Token::Volts | Token::Sign(b'('));
        if begins_atom == self.after_atom {
            return None;
        }
        self.after_atom = matches!(token, Token::Number(_) | Token::Volts | Token::Sign(b')'));
        match token {
            Token::Sign(b'(') => self.open()?,
            Token::Sign(b')') => self.close()?,
            Token::Sign(sign) => self.operator(sign),
            atom => self.placed.push(atom),
        }
        Some(())
    }

    /// The whole in postfix order, where nothing is missing at its end.
    fn end(mut self) -> Option<Vec<Token>> {
        self.release(1);
        (self.after_atom && self.waiting.is_empty()).then_some(self.placed)
    }
}

fn postfix(mut text: &[u8]) -> Option<Vec<Token>> {
    let mut yard = Yard::default();
    while !text.is_empty() {
        let (token, rest) = first(text)?;
        yard.take(token)?;
        text = rest;
    }
    yard.end()
}

/// One operation. What is outside 64 bits is outside the reach too; `checked_div` drops the remainder towards zero, and
/// there is nothing by 0.
fn operation(sign: u8, left: i64, right: i64) -> Result<i64, Refusal> {
    let result = match sign {
        b'+' => left.checked_add(right),
        b'-' => left.checked_sub(right),
        b'*' => left.checked_mul(right),
        _ => left.checked_div(right),
    };
    result.filter(|result| (-REACH..=REACH).contains(result)).ok_or(BAD_STEP)
}

fn worked_out(steps: &[Token], volts: u32) -> Result<i64, Refusal> {
    let mut values: Vec<i64> = Vec::new();
    let take = |values: &mut Vec<i64>| values.pop().expect("an operator stands after its operands");
    for &step in steps {
        let value = match step {
            Token::Number(number) => number,
            Token::Volts => i64::from(volts),
            Token::Sign(sign) => {
                let right = take(&mut values);
                operation(sign, take(&mut values), right)?
            }
        };
        values.push(value);
    }
    Ok(take(&mut values))
}

/// A plain negative number is a limit too, though no sum.
fn negative(field: &[u8]) -> Option<i64> {
    named(field.strip_prefix(b"-")?).filter(|&number| number != 0).map(|number| -number)
}

/// What a limit gives at these nominal volts: 11 where it is no formula, 12 where a step of it fails.
pub fn value(field: &[u8], volts: u32) -> Result<i64, Refusal> {
    demand(field.len() <= LONGEST, BAD_FORMULA)?;
    match negative(field) {
        Some(number) => Ok(number),
        None => worked_out(&postfix(field).ok_or(BAD_FORMULA)?, volts),
    }
}

pub mod cases;
#[cfg(test)]
mod tests;
