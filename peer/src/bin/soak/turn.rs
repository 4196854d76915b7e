//! One input: its own random numbers, the buffers lent for it, and the comparison.

use crate::lent::{shown, Fence, Lent, LentLength};
use crate::world::{World, Worlds};
use peer::archive::c::Pair;
use peer::rng::Rng;
use peer::sizes::Sizes;
use std::array::from_fn;

pub type LengthInC = unsafe extern "C" fn(*const u8, usize, *const u8, usize, *mut u8, usize, *mut usize) -> u8;
pub type Length = fn(&[u8], &[u8], &mut [u8], usize) -> (u8, usize);

pub struct Turn<'a> {
    pub rng: Rng,
    /// Of the job's category.
    pub world: &'a World,
    others: [&'a World; 2],
    /// The sizes that this turn takes for the right ones: one of 16 takes those of another category.
    pub taken: &'static Sizes,
    fence: Fence,
}

/// Private seed, master seed and salt.
const SEEDS: [fn(&Sizes) -> usize; 3] = [|s| s.key_seed, |s| s.round_seed, |s| s.salt];

impl<'a> Turn<'a> {
    pub fn new(rng: Rng, worlds: &'a Worlds, category: usize, fence: Fence) -> Turn<'a> {
        let world = &worlds[category];
        let others = [1, 2].map(|step| &worlds[(category + step) % worlds.len()]);
        let mut turn = Turn { rng, world, others, taken: &world.category.sizes, fence };
        if turn.one_in(16) {
            turn.taken = &turn.other().category.sizes;
        }
        turn
    }

    pub fn sizes(&self) -> &'static Sizes {
        &self.world.category.sizes
    }

    /// The world of another category.
    pub fn other(&mut self) -> &'a World {
        self.others[self.rng.below(self.others.len())]
    }

    /// The size of a buffer that the category decides: mostly the one that is taken for right, else that of
    /// another category or what `size` gives.
    pub fn size_of(&mut self, of: fn(&Sizes) -> usize, right_in_16: usize) -> usize {
        let right = of(self.taken);
        if self.rng.below(16) < right_in_16 {
            return right;
        }
        match self.rng.below(4) {
            0 => of(&self.other().category.sizes),
            _ => size(&mut self.rng, right, 0),
        }
    }

    /// Both seeds and the salt, each of such a size.
    pub fn seeds(&mut self, right_in_16: usize) -> [Vec<u8>; 3] {
        SEEDS.map(|of| self.bytes_of(of, right_in_16))
    }

    pub fn bytes_of(&mut self, of: fn(&Sizes) -> usize, right_in_16: usize) -> Vec<u8> {
        let len = self.size_of(of, right_in_16);
        self.rng.bytes(len)
    }

    pub fn lend(&mut self, held: &[u8]) -> Lent {
        Lent::new(&mut self.rng, self.fence, held)
    }

    pub fn lend_all<const COUNT: usize>(&mut self, all: [&[u8]; COUNT]) -> [Lent; COUNT] {
        from_fn(|at| self.lend(all[at]))
    }

    pub fn lend_length(&mut self) -> LentLength {
        LentLength::new(&mut self.rng, self.fence)
    }

    /// Whether one of `count` turns on average comes.
    pub fn one_in(&mut self, count: usize) -> bool {
        self.rng.below(count) == 0
    }

    pub fn pick<'b, T>(&mut self, all: &'b [T]) -> &'b T {
        &all[self.rng.below(all.len())]
    }

    /// An entry that makes a buffer of `room` bytes from one input.
    pub fn pair(&mut self, proved: Pair, plain: impl Fn(&[u8], &mut [u8]) -> u8, input: &[u8], room: usize) -> u8 {
        let mut expected = self.rng.bytes(room);
        let (lent, mut out) = (self.lend(input), self.lend(&expected));
        // SAFETY: both buffers are alive for the call and do not overlap.
        let answer = unsafe { proved(lent.pointer(), lent.len(), out.pointer_mut(), out.len()) };
        let due = plain(input, &mut expected);
        assert_eq!(answer, due, "answer on {} into {room} bytes", shown(input));
        lent.demand_unchanged();
        out.demand(&expected);
        answer
    }

    /// An entry that under a table writes at the front of a buffer of `room` bytes and gives the length.
    pub fn length(&mut self, proved: LengthInC, plain: Length, table: &[u8], input: &[u8], room: usize) -> u8 {
        let mut expected = self.rng.bytes(room);
        let lent = self.lend_all([table, input]);
        let (mut out, mut length) = (self.lend(&expected), self.lend_length());
        let [(a, b), (c, d)] = lent.each_ref().map(|l| (l.pointer(), l.len()));
        // SAFETY: as above.
        let answer = unsafe { proved(a, b, c, d, out.pointer_mut(), out.len(), length.pointer_mut()) };
        let due = plain(table, input, &mut expected, length.held);
        let inputs = || format!("{}, table {}", shown(input), shown(table));
        assert_eq!((answer, length.value()), due, "answer and length on {} into {room} bytes", inputs());
        lent.iter().for_each(|l| l.demand_unchanged());
        out.demand(&expected);
        answer
    }
}

/// The size of a buffer: mostly the right one, else one beside it, an end, or any.
pub fn size(rng: &mut Rng, right: usize, right_in_16: usize) -> usize {
    if rng.below(16) < right_in_16 {
        return right;
    }
    match rng.below(8) {
        0 | 1 => right.saturating_sub(1),
        2 | 3 => right + 1,
        4 => 0,
        5 => right.saturating_sub(8),
        6 => rng.below(right + 1),
        _ => rng.below(2 * right + 8),
    }
}

/// Bytes of another size, with this content as far as it goes.
pub fn resized(rng: &mut Rng, bytes: &[u8], right_in_16: usize) -> Vec<u8> {
    let (mut out, fill) = (bytes.to_vec(), [0, 0xFF][rng.below(2)]);
    out.resize(size(rng, bytes.len(), right_in_16), fill);
    out
}

/// One byte changed, mostly; else a bit, a run of ones, a run of noise or two bytes exchanged. The
/// first and the last byte are changed often.
pub fn damaged(rng: &mut Rng, bytes: &[u8]) -> Vec<u8> {
    let mut out = bytes.to_vec();
    if out.is_empty() {
        return out;
    }
    let at = match rng.below(16) {
        0 => 0,
        1 => out.len() - 1,
        _ => rng.below(out.len()),
    };
    let end = out.len().min(at + 1 + rng.below(24));
    match rng.below(10) {
        0..=5 => out[at] ^= 1 + rng.below(255) as u8,
        6 => out[at] ^= 1 << rng.below(8),
        7 => out[at..end].fill(0xFF),
        8 => rng.fill(&mut out[at..end]),
        _ => {
            let other = rng.below(out.len());
            out.swap(at, other);
        }
    }
    out
}

/// Numbers at and beside the ends of every range, and any.
pub fn number(rng: &mut Rng) -> u32 {
    let rounds = [163, 164, 245, 246, 327, 328];
    let ends = [0, 1, 2, 126, 127, 128, 255, 256, 257, 65_535, 65_536, 65_537, 1 << 31, u32::MAX - 1, u32::MAX];
    match rng.below(4) {
        0 => rng.word() as u32,
        1 => rounds[rng.below(rounds.len())],
        _ => ends[rng.below(ends.len())],
    }
}
