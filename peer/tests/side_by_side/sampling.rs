//! The draws of values, exponents and first challenges from a lent block.

use peer::archive::samples::{self, Sample};
use peer::archive::{Category, CATEGORIES};
use peer::bits::{field_count, lay};
use peer::draws::{Draw, EXPONENTS, FIRST_CHALLENGES, VALUES};
use peer::harness::{Comparison, LEAST};
use peer::rng::Rng;

/// One entry: what it keeps, its two fixed sizes, and of how many inputs of each kind one is tried.
struct Job {
    draw: Draw,
    block: usize,
    count: usize,
    one_of: usize,
}

impl Job {
    fn fields(&self) -> usize {
        field_count(&vec![0; self.block], self.draw.kind.width)
    }

    fn kept(&self, rng: &mut Rng) -> u32 {
        rng.below(usize::from(self.draw.kind.limit)) as u32
    }

    fn dropped(&self, rng: &mut Rng) -> u32 {
        let limit = u32::from(self.draw.kind.limit);
        limit + rng.below((1 << self.draw.kind.width) - limit as usize) as u32
    }

    /// A block whose fields are kept, but for those that `drop` names.
    fn block(&self, rng: &mut Rng, drop: impl Fn(usize) -> bool) -> Vec<u8> {
        let field = |i| if drop(i) { self.dropped(rng) } else { self.kept(rng) };
        let fields: Vec<u32> = (0..self.fields()).map(field).collect();
        lay(&fields, self.draw.kind.width)
    }
}

/// One of so many lengths to two above the right one, and all that are next to it or to 0.
fn lengths(right: usize, one_of: usize) -> impl Iterator<Item = usize> {
    let near = move |len: usize| len < 2 || len + 2 >= right;
    (0..=right + 2).filter(move |&len| len != right && (near(len) || len % one_of == 0))
}

/// Lengths of block and output, one or both of them wrong; a wrong size comes before a short draw.
pub fn wrong_sizes(c: &mut Comparison, (block, count): (usize, usize), good: &[u8], one_of: usize) {
    for fill in [0x00, 0xFF] {
        for len in lengths(block, one_of) {
            c.demand(&vec![fill; len], count, 1);
        }
        for len in lengths(count, one_of) {
            c.demand(&vec![fill; block], len, 1);
        }
    }
    for block_len in [0, 1, block - 1, block + 1, count] {
        for out_len in [0, 1, count - 1, count + 1, block] {
            c.demand(&vec![0xFF; block_len], out_len, 1);
        }
    }
    let mut long = good.to_vec();
    long.push(0);
    c.demand(good, count, 0);
    c.demand(&long, count, 1);
    c.demand(&good[..block - 1], count, 1);
}

/// Fields dropped alone, and dropped fields at the front up to and past the last that can be spared.
fn dropped_fields(c: &mut Comparison, job: &Job, rng: &mut Rng) {
    let fields = job.fields();
    let spared = fields - job.count;
    for at in (0..fields).filter(|at| at % job.one_of == 0 || *at == fields - 1) {
        c.demand(&job.block(rng, |i| i == at), job.count, 0);
    }
    for front in [1, 2, spared - 1, spared, spared + 1, spared + 2, fields] {
        let wanted = if front <= spared { 0 } else { 2 };
        c.demand(&job.block(rng, |i| i < front), job.count, wanted);
        c.demand(&job.block(rng, |i| i >= fields - front), job.count, wanted);
    }
    c.demand(&vec![0; job.block], job.count, 0);
    c.demand(&vec![0xFF; job.block], job.count, 2);
}

/// Which of `fields` are dropped: `count` of them, at random.
pub fn scattered(rng: &mut Rng, fields: usize, count: usize) -> Vec<bool> {
    let mut drop = vec![false; fields];
    let mut left = count;
    while left > 0 {
        let at = rng.below(fields);
        left -= usize::from(!drop[at]);
        drop[at] = true;
    }
    drop
}

/// Blocks in which the last field decides, and blocks that miss or exceed by one or two.
fn tight_blocks(c: &mut Comparison, job: &Job, rng: &mut Rng, turns: usize) {
    let last = job.fields() - 1;
    let spared = job.fields() - job.count;
    for _ in 0..turns {
        let mut drop = scattered(rng, last, spared);
        drop.push(false);
        c.demand(&job.block(rng, |i| drop[i]), job.count, 0);
        drop[last] = true;
        c.demand(&job.block(rng, |i| drop[i]), job.count, 2);
        let count = spared + rng.below(4) - 1;
        let drop = scattered(rng, last + 1, count);
        c.demand(&job.block(rng, |i| drop[i]), job.count, if count <= spared { 0 } else { 2 });
    }
}

fn compare(c: &mut Comparison, job: &Job) {
    let mut rng = Rng::new(0x7361_6D70);
    let good = job.block(&mut rng, |_| false);
    wrong_sizes(c, (job.block, job.count), &good, job.one_of);
    dropped_fields(c, job, &mut rng);
    tight_blocks(c, job, &mut rng, 3_000 / job.one_of);
    for _ in 0..LEAST / job.one_of {
        c.agree(&rng.bytes(job.block), job.count);
    }
}

/// What is tried at a category is one of so many: all at category 1, fewer elsewhere.
pub fn one_of(category: &Category, elsewhere: usize) -> usize {
    if category.number == 1 {
        1
    } else {
        elsewhere
    }
}

fn compare_all(sample: Sample, draw: Draw, elsewhere: usize) {
    for category in CATEGORIES {
        let ((block, count), one_of) = ((sample.lengths)(&category.sizes), one_of(&category, elsewhere));
        let mut c = sample.comparison(category, category.named(sample.name)).at_least(LEAST / one_of);
        compare(&mut c, &Job { draw, block, count, one_of });
        c.finish(&[0, 1, 2]);
    }
}

#[test]
fn sample_matrix() {
    compare_all(samples::MATRIX, VALUES, 50);
}

#[test]
fn sample_exponents() {
    compare_all(samples::EXPONENTS, EXPONENTS, 5);
}

#[test]
fn sample_mask_values() {
    compare_all(samples::MASK_VALUES, VALUES, 5);
}

#[test]
fn sample_first_challenges() {
    compare_all(samples::FIRST_CHALLENGES, FIRST_CHALLENGES, 5);
}
