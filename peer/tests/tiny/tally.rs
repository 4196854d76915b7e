//! Counts what both programs agreed on: by answer, and by the draw that was short.

use crate::archive::Tiny;
use crate::short::Place;
use std::collections::BTreeMap;

/// What every entry is compared on at least.
const LEAST: usize = 10_000;

/// Bytes before and after each buffer that no call may touch.
const GUARD: usize = 32;

pub struct Tally {
    name: String,
    inputs: usize,
    answers: [usize; 5],
    places: BTreeMap<Place, usize>,
}

impl Tally {
    pub fn new(tiny: &Tiny, entry: &str) -> Tally {
        let name = format!("{entry} over {}", tiny.name);
        Tally { name, inputs: 0, answers: [0; 5], places: BTreeMap::new() }
    }

    /// Compares the answers of an entry that makes nothing.
    pub fn agree(&mut self, proved: u8, plain: u8, place: Option<Place>) {
        assert_eq!(proved, plain, "answer of {} to input {}", self.name, self.inputs);
        self.inputs += 1;
        self.answers[usize::from(plain)] += 1;
        if let Some(place) = place {
            *self.places.entry(place).or_default() += 1;
        }
    }

    /// Compares an entry that makes `len` bytes: also every byte in reach.
    pub fn agree_on_bytes(
        &mut self,
        len: usize,
        proved: impl FnOnce(&mut [u8]) -> u8,
        plain: impl FnOnce(&mut [u8]) -> u8,
        place: Option<Place>,
    ) {
        let old = |at: usize| (at.wrapping_mul(0x9E5) ^ self.inputs.wrapping_mul(0x3D)) as u8 ^ 0xA5;
        let mut own: Vec<u8> = (0..len + 2 * GUARD).map(old).collect();
        let mut other = own.clone();
        let answer = proved(&mut own[GUARD..GUARD + len]);
        let expected = plain(&mut other[GUARD..GUARD + len]);
        assert!(own == other, "bytes of {} on input {}: {own:02x?} for {other:02x?}", self.name, self.inputs);
        self.agree(answer, expected, place);
    }

    /// Ends a comparison: the answers from 0 up to `last` came, and 2 from just these places.
    pub fn finish(self, last: usize, places: &[Place]) {
        let Tally { name, inputs, answers, places: reached } = self;
        println!("{name} at tiny sizes: {inputs} inputs agree; answers 0 to 4: {answers:?}; short alone: {reached:?}");
        assert!(inputs >= LEAST, "{name}: only {inputs} inputs");
        for (answer, &times) in answers.iter().enumerate() {
            assert_eq!(times > 0, answer <= last, "{name}: answer {answer} came {times} times");
        }
        assert!(reached.keys().eq(places), "{name}: short draws at {reached:?}");
    }
}
