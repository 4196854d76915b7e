//! The draw of the second challenge.

use crate::sampling::{one_of, scattered, wrong_sizes};
use peer::archive::samples::SECOND_CHALLENGE;
use peer::archive::CATEGORIES;
use peer::draws::shuffle_limit;
use peer::harness::{Comparison, LEAST};
use peer::rng::Rng;

/// The sizes of the entry.
struct Job {
    block: usize,
    count: usize,
}

impl Job {
    fn fields(&self) -> usize {
        self.block / 2
    }

    /// Fields that can be spared: each of the positions from the last to the second takes one.
    fn spared(&self) -> usize {
        self.fields() - (self.count - 1)
    }
}

/// A field that is kept at position j: often one next to a bound.
fn kept(rng: &mut Rng, j: usize) -> u32 {
    let limit = shuffle_limit(j);
    match rng.below(8) {
        0 => limit - 1,
        1 => 0,
        2 => j as u32,
        _ => rng.below(limit as usize) as u32,
    }
}

/// A field that is dropped at position j: the least, the greatest or another one.
fn dropped(rng: &mut Rng, j: usize) -> u32 {
    let limit = shuffle_limit(j);
    match rng.below(3) {
        0 => limit,
        1 => 65535,
        _ => limit + rng.below(65536 - limit as usize) as u32,
    }
}

/// A block that has `drops` dropped fields, placed as `wish` says where a field can be dropped at all
/// (not where j + 1 is a power of two, as at the last exchange), the rest as soon as it can. Returns
/// the block and the number of its dropped fields.
fn block(job: &Job, rng: &mut Rng, drops: usize, wish: &[bool]) -> (Vec<u8>, usize) {
    let mut fields = Vec::new();
    let (mut j, mut wished, mut done) = (job.count - 1, 0, 0);
    for &drop in wish {
        wished += usize::from(drop);
        if j == 0 {
            fields.push(rng.below(65536) as u32);
        } else if done < wished.min(drops) && shuffle_limit(j) < 65536 {
            fields.push(dropped(rng, j));
            done += 1;
        } else {
            fields.push(kept(rng, j));
            j -= 1;
        }
    }
    (peer::bits::lay(&fields, 16), done)
}

/// Drops at the front up to and past the last that can be spared.
fn dropped_at_the_front(c: &mut Comparison, job: &Job, rng: &mut Rng) {
    for drops in 0..=job.fields() {
        let (bytes, done) = block(job, rng, drops, &vec![true; job.fields()]);
        assert_eq!(done, drops);
        c.demand(&bytes, job.count, if drops <= job.spared() { 0 } else { 2 });
    }
}

/// Drops at random: as many as can be spared, so that the last field decides, or about as many.
fn tight_blocks(c: &mut Comparison, job: &Job, rng: &mut Rng, turns: usize) {
    let spared = job.spared();
    for turn in 0..turns {
        let drops = if turn % 2 == 0 { spared + turn / 2 % 2 } else { spared + rng.below(5) - 2 };
        let wish = scattered(rng, job.fields() - 10, drops);
        let wish: Vec<bool> = wish.into_iter().chain([false; 10]).collect();
        let (bytes, done) = block(job, rng, drops, &wish);
        c.demand(&bytes, job.count, if done <= spared { 0 } else { 2 });
    }
}

/// One dropped field alone at every position that can have one, by its least and greatest field.
fn dropped_alone(c: &mut Comparison, job: &Job, rng: &mut Rng, times: usize) {
    for at in 0..job.count - 1 {
        for _ in 0..times {
            let wish: Vec<bool> = (0..job.fields()).map(|i| i == at).collect();
            let (bytes, _) = block(job, rng, 1, &wish);
            c.demand(&bytes, job.count, 0);
        }
    }
}

#[test]
fn sample_second_challenge() {
    for category in CATEGORIES {
        let ((block_len, count), one_of) = ((SECOND_CHALLENGE.lengths)(&category.sizes), one_of(&category, 5));
        let (job, mut rng) = (Job { block: block_len, count }, Rng::new(0x7368_7566));
        let name = category.named(SECOND_CHALLENGE.name);
        let mut c = SECOND_CHALLENGE.comparison(category, name).at_least(LEAST / one_of);
        let (good, _) = block(&job, &mut rng, 0, &vec![false; job.fields()]);
        wrong_sizes(&mut c, (job.block, job.count), &good, one_of);
        c.demand(&vec![0; job.block], job.count, 0);
        c.agree(&vec![0xFF; job.block], job.count);
        dropped_at_the_front(&mut c, &job, &mut rng);
        dropped_alone(&mut c, &job, &mut rng, 20 / one_of);
        tight_blocks(&mut c, &job, &mut rng, 50_000 / one_of);
        for _ in 0..c.missing().max(50_000 / one_of) {
            c.agree(&rng.bytes(job.block), job.count);
        }
        c.finish(&[0, 1, 2]);
    }
}
