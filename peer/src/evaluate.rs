//! Lines whose limits are formulas, and the profile lines that they are evaluated to.

use crate::formula::value;
use crate::line::{read_line, LONGEST};
use crate::refusal::{answer_length, demand, Refusal, BAD_PROFILE, BAD_SIZE};
use crate::table::Table;

/// The most bytes of an input.
pub const LONGEST_INPUT: usize = 400;

/// The fields that are limits, counted from 0, each with some number that a profile line may have there. The last is in
/// a `GP2` line alone.
pub const LIMITS: [(usize, &str); 5] = [(6, "1001"), (8, "1"), (10, "1"), (12, "-1"), (14, "100")];

/// An input that is a profile line under a table where its limits are left aside.
pub struct Frame<'a> {
    table: &'a Table,
    fields: Vec<&'a [u8]>,
    volts: u32,
}

/// The fields of an input whose only LF is its last byte.
fn fields(input: &[u8]) -> Option<Vec<&[u8]>> {
    let text = input.strip_suffix(b"\n")?;
    (!text.contains(&b'\n')).then(|| text.split(|&byte| byte == b',').collect())
}

/// The line with these texts as its limits, as far as it has fields for them.
fn with_limits(fields: &[&[u8]], limits: &[String]) -> Vec<u8> {
    let mut all = fields.to_vec();
    for ((at, _), limit) in LIMITS.iter().zip(limits) {
        if let Some(field) = all.get_mut(*at) {
            *field = limit.as_bytes();
        }
    }
    [all.join(&b','), b"\n".to_vec()].concat()
}

impl<'a> Frame<'a> {
    /// The limits are left aside by reading the line with others that break no rule. Where that is no profile line, for
    /// its length too, the answer is 5.
    pub fn of(table: &'a Table, input: &'a [u8]) -> Result<Frame<'a>, Refusal> {
        let fields = fields(input).ok_or(BAD_PROFILE)?;
        let aside = with_limits(&fields, &LIMITS.map(|(_, allowed)| allowed.to_string()));
        let volts = read_line(table, &aside).map_err(|_| BAD_PROFILE)?.volts;
        Ok(Frame { table, fields, volts })
    }

    /// What each limit gives, from the left.
    fn values(&self) -> impl Iterator<Item = Result<i64, Refusal>> + '_ {
        let limits = LIMITS.iter().filter_map(|(at, _)| self.fields.get(*at));
        limits.map(|limit| value(limit, self.volts))
    }

    /// The profile line with these numbers as limits, where they are in range.
    fn line(&self, numbers: &[i64]) -> Result<Vec<u8>, Refusal> {
        let numbers: Vec<String> = numbers.iter().map(i64::to_string).collect();
        let line = with_limits(&self.fields, &numbers);
        read_line(self.table, &line).map(|_| line).map_err(|_| BAD_PROFILE)
    }
}

/// The profile line of an input. The first formula with a fault decides, and only then the ranges of the numbers.
fn evaluated(table: &Table, input: &[u8]) -> Result<Vec<u8>, Refusal> {
    let frame = Frame::of(table, input)?;
    let numbers: Vec<i64> = frame.values().collect::<Result<_, _>>()?;
    frame.line(&numbers)
}

/// Evaluates a line under a table's image into the lent bytes; the length comes back, or as it was.
pub fn evaluate_line(table: &[u8], input: &[u8], out: &mut [u8], length: usize) -> (u8, usize) {
    let make = || {
        let table = Table::lent(table)?;
        demand(input.len() <= LONGEST_INPUT && out.len() == LONGEST, BAD_SIZE)?;
        evaluated(&table, input)
    };
    answer_length(make(), out, length)
}

pub mod cases;
#[cfg(test)]
mod tests;
