//! Least times of programs that take turns on the same inputs.

use std::hint::black_box;
use std::ops::Range;
use std::time::Instant;

/// A program over the input of a number.
pub type Program<'a> = &'a mut dyn FnMut(usize);

/// Turns of each program with each pile of inputs.
const TURNS: usize = 400;

/// Works for half a second: a processor that was idle is slow at first.
pub fn warm_up() {
    let start = Instant::now();
    while black_box(start.elapsed().as_secs_f64()) < 0.5 {}
}

/// Seconds for one call of each program over `inputs` inputs, `pile` of them timed at once.
///
/// The programs take turns on a pile; a pile's time is the least of all its turns, and the answer is
/// the mean of the piles. Piles of one alternate call by call.
pub fn least(inputs: usize, pile: usize, programs: &mut [Program]) -> Vec<f64> {
    let mut sums = vec![0.0; programs.len()];
    for start in (0..inputs).step_by(pile) {
        let best = least_of_pile(start..inputs.min(start + pile), programs);
        sums.iter_mut().zip(best).for_each(|(sum, best)| *sum += best);
    }
    sums.iter().map(|sum| sum / inputs as f64).collect()
}

fn least_of_pile(pile: Range<usize>, programs: &mut [Program]) -> Vec<f64> {
    let mut best = vec![f64::MAX; programs.len()];
    for _ in 0..TURNS {
        for (best, program) in best.iter_mut().zip(programs.iter_mut()) {
            let start = Instant::now();
            pile.clone().for_each(|input| program(black_box(input)));
            *best = best.min(start.elapsed().as_secs_f64());
        }
    }
    best
}
