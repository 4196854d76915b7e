//! Calls both programs on one input, each with guarded buffers of its own, and counts what agreed.

use crate::refusal::ANSWERS;
use std::fmt::Debug;

/// An entry over an input and a lent buffer.
pub type Function = fn(&[u8], &mut [u8]) -> u8;

/// What every cheap entry is compared on at least.
pub const LEAST: usize = 100_000;

/// Bytes before and after each buffer that no call may touch.
const GUARD: usize = 64;

/// What a call gives beside the bytes lent: the answer, or the answer and a length.
pub trait Answer: PartialEq + Debug + Copy {
    fn number(self) -> u8;
}

impl Answer for u8 {
    fn number(self) -> u8 {
        self
    }
}

impl Answer for (u8, usize) {
    fn number(self) -> u8 {
        self.0
    }
}

fn mix(at: usize, seed: usize) -> u8 {
    (at.wrapping_mul(0x9E5) ^ seed.wrapping_mul(0x3D)) as u8 ^ 0xA5
}

/// A buffer between guards.
pub struct Lent {
    bytes: Vec<u8>,
    seed: usize,
}

impl Lent {
    /// A buffer with this content; the seed decides the guards.
    pub fn holding(content: &[u8], seed: usize) -> Lent {
        let mut bytes: Vec<u8> = (0..content.len() + 2 * GUARD).map(|at| mix(at, seed)).collect();
        bytes[GUARD..GUARD + content.len()].copy_from_slice(content);
        Lent { bytes, seed }
    }

    /// A buffer with some old content, a different one for each seed.
    pub fn new(len: usize, seed: usize) -> Lent {
        let content: Vec<u8> = (GUARD..GUARD + len).map(|at| mix(at, seed)).collect();
        Lent::holding(&content, seed)
    }

    pub fn part(&mut self) -> &mut [u8] {
        let end = self.bytes.len() - GUARD;
        &mut self.bytes[GUARD..end]
    }

    /// The buffer after a call, once its guards are found as they were.
    pub fn content(&self) -> &[u8] {
        let end = self.bytes.len() - GUARD;
        let guards = (0..GUARD).chain(end..self.bytes.len());
        assert!(guards.into_iter().all(|at| self.bytes[at] == mix(at, self.seed)), "bytes beside a buffer");
        &self.bytes[GUARD..end]
    }
}

/// Counts the inputs on which an entry agreed, by answer.
pub struct Tally {
    name: String,
    inputs: usize,
    answers: [usize; ANSWERS],
}

impl Tally {
    pub fn new(name: impl Into<String>) -> Tally {
        Tally { name: name.into(), inputs: 0, answers: [0; ANSWERS] }
    }

    pub fn inputs(&self) -> usize {
        self.inputs
    }

    /// Counts one input on which both gave `answer`.
    pub fn count<A: Answer>(&mut self, answer: A, expected: A, shown: impl Fn() -> String) {
        assert_eq!(answer, expected, "answer of {} on {}", self.name, shown());
        self.inputs += 1;
        self.answers[usize::from(answer.number())] += 1;
    }

    /// Compares two calls that are each lent a buffer with the same content: the answer and every
    /// byte in reach. Returns the answer.
    pub fn both<A: Answer>(
        &mut self,
        out_len: usize,
        proved: impl FnOnce(&mut [u8]) -> A,
        plain: impl FnOnce(&mut [u8]) -> A,
        shown: impl Fn() -> String,
    ) -> u8 {
        let (mut own, mut other) = (Lent::new(out_len, self.inputs), Lent::new(out_len, self.inputs));
        let (answer, expected) = (proved(own.part()), plain(other.part()));
        let (own, other) = (own.content(), other.content());
        assert!(own == other, "bytes of {} on {}: {own:02x?} for {other:02x?}", self.name, shown());
        self.count(answer, expected, shown);
        answer.number()
    }

    /// Ends a comparison: at least so many inputs were tried, and just the answers `reached` came.
    pub fn finish(self, least: usize, reached: &[u8]) {
        let Tally { name, inputs, answers } = self;
        println!("{name}: {inputs} inputs agree; answers from 0 on: {answers:?}");
        assert!(inputs >= least, "{name}: only {inputs} inputs");
        for (answer, &times) in answers.iter().enumerate() {
            assert_eq!(times > 0, reached.contains(&(answer as u8)), "{name}: answer {answer} came {times} times");
        }
    }
}

/// An entry at sizes of its own.
type Entry = Box<dyn Fn(&[u8], &mut [u8]) -> u8>;

/// The comparison of an entry that makes a buffer from one input.
pub struct Comparison {
    tally: Tally,
    least: usize,
    proved: Entry,
    plain: Entry,
}

impl Comparison {
    pub fn new(
        name: impl Into<String>,
        proved: impl Fn(&[u8], &mut [u8]) -> u8 + 'static,
        plain: impl Fn(&[u8], &mut [u8]) -> u8 + 'static,
    ) -> Comparison {
        Comparison { tally: Tally::new(name), least: LEAST, proved: Box::new(proved), plain: Box::new(plain) }
    }

    /// The same where fewer inputs are enough.
    pub fn at_least(self, least: usize) -> Comparison {
        Comparison { least, ..self }
    }

    /// Compares the answer and every byte in reach; returns the answer.
    pub fn agree(&mut self, input: &[u8], out_len: usize) -> u8 {
        let own_input = input.to_vec();
        let (proved, plain) = (&self.proved, &self.plain);
        let shown = || format!("{input:02x?} into {out_len} bytes");
        let answer = self.tally.both(out_len, |out| proved(&own_input, out), |out| plain(input, out), shown);
        assert!(own_input == input, "input of {} on {}", self.tally.name, shown());
        answer
    }

    /// Compares, and demands one answer of both.
    pub fn demand(&mut self, input: &[u8], out_len: usize, wanted: u8) {
        let answer = self.agree(input, out_len);
        assert_eq!(answer, wanted, "{} on {input:02x?} into {out_len} bytes", self.tally.name);
    }

    /// Ends a comparison: enough inputs were tried, and just the answers `reached` came.
    pub fn finish(self, reached: &[u8]) {
        self.tally.finish(self.least, reached);
    }

    /// How many inputs are still to be tried.
    pub fn missing(&self) -> usize {
        self.least.saturating_sub(self.tally.inputs)
    }
}
