//! Blocks and outputs of the draws.

use crate::world::{each_pair, lengths, name, World};
use peer::archive::samples::{Sample, SAMPLES};

/// The block, the output, or both in sizes of the other category. Blocks of zeros yield enough, blocks
/// of ones do not.
fn compare(own: &World, other: &World, sample: &Sample) {
    let (own_sizes, other_sizes) = (own.category.sizes, other.category.sizes);
    let mut c = sample.comparison(own.category, name(sample.name, own, other)).at_least(80);
    let (block, count) = (sample.lengths)(&own_sizes);
    let blocks = lengths(&other_sizes).into_iter().map(|len| (len, count));
    let outputs = lengths(&other_sizes).into_iter().map(|len| (block, len));
    for (block_len, out_len) in blocks.chain(outputs).chain([(sample.lengths)(&other_sizes), (block, count)]) {
        for fill in [0x00, 0xFF] {
            let answer = c.agree(&vec![fill; block_len], out_len);
            assert_eq!(answer == 1, (block_len, out_len) != (block, count), "{block_len} into {out_len} bytes");
        }
    }
    c.finish(&[0, 1, 2]);
}

#[test]
fn samples() {
    each_pair(|own, other| SAMPLES.iter().for_each(|sample| compare(own, other, sample)));
}
