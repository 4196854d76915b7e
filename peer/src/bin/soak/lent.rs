//! Bytes lent to a call.

use peer::rng::Rng;

/// What stands around lent bytes.
#[derive(Clone, Copy, PartialEq)]
pub enum Fence {
    /// Bytes that no call may change.
    Canaries,
    /// Nothing: a heap block of just their size, whose ends memcheck watches.
    Heap,
}

/// Bytes before and after, and up to eight more before, so that every alignment comes.
const GUARD: usize = 48;

/// A buffer, with what it held when it was lent.
pub struct Lent {
    block: Box<[u8]>,
    front: usize,
    held: Vec<u8>,
    canary: u8,
    null: bool,
}

impl Lent {
    /// An empty buffer is lent as null every other time: the header allows both.
    pub fn new(rng: &mut Rng, fence: Fence, held: &[u8]) -> Lent {
        let (front, back) = match fence {
            Fence::Canaries => (GUARD + rng.below(8), GUARD),
            Fence::Heap => (0, 0),
        };
        let canary = rng.below(256) as u8;
        let mut block = vec![canary; front + held.len() + back].into_boxed_slice();
        block[front..front + held.len()].copy_from_slice(held);
        Lent { block, front, held: held.to_vec(), canary, null: held.is_empty() && rng.below(2) == 0 }
    }

    pub fn len(&self) -> usize {
        self.held.len()
    }

    pub fn pointer(&self) -> *const u8 {
        if self.null {
            std::ptr::null()
        } else {
            self.block[self.front..].as_ptr()
        }
    }

    pub fn pointer_mut(&mut self) -> *mut u8 {
        if self.null {
            std::ptr::null_mut()
        } else {
            self.block[self.front..].as_mut_ptr()
        }
    }

    /// The bytes after a call, once what stands around them is found as it was.
    pub fn content(&self) -> &[u8] {
        let (front, rest) = self.block.split_at(self.front);
        let (content, back) = rest.split_at(self.held.len());
        assert!(front.iter().chain(back).all(|&byte| byte == self.canary), "bytes beside a buffer");
        content
    }

    /// Demands these bytes of it.
    pub fn demand(&self, expected: &[u8]) {
        let content = self.content();
        assert!(content == expected, "bytes lent: {} for {}", shown(content), shown(expected));
    }

    /// Demands what was lent.
    pub fn demand_unchanged(&self) {
        self.demand(&self.held);
    }
}

/// A number lent for a length: between two others, or a heap block of its own.
pub struct LentLength {
    words: Box<[usize]>,
    at: usize,
    pub held: usize,
    canary: usize,
}

impl LentLength {
    pub fn new(rng: &mut Rng, fence: Fence) -> LentLength {
        let (held, canary) = (rng.word() as usize, rng.word() as usize);
        let at = usize::from(fence == Fence::Canaries);
        let mut words = vec![canary; 2 * at + 1].into_boxed_slice();
        words[at] = held;
        LentLength { words, at, held, canary }
    }

    pub fn pointer_mut(&mut self) -> *mut usize {
        self.words[self.at..].as_mut_ptr()
    }

    /// The number after a call, once its neighbours are found as they were.
    pub fn value(&self) -> usize {
        let (front, rest) = self.words.split_at(self.at);
        assert!(front.iter().chain(&rest[1..]).all(|&word| word == self.canary), "bytes beside a length");
        rest[0]
    }
}

/// Up to 160 bytes in hexadecimal, and how many there are.
pub fn shown(bytes: &[u8]) -> String {
    let digits: String = bytes.iter().take(160).map(|byte| format!("{byte:02x}")).collect();
    format!("{digits} ({} bytes)", bytes.len())
}
