//! Draws by a 32-bit accumulator.

/// Keeps fields of `WIDTH` bits below `limit`, each plus `addend`, until `out` is full.
pub fn draw<const WIDTH: u32>(block: &[u8], limit: u8, addend: u8, out: &mut [u8]) -> bool {
    let mask = (1 << WIDTH) - 1;
    let (mut acc, mut bits, mut kept) = (0u32, 0, 0);
    for &byte in block {
        acc |= u32::from(byte) << bits;
        bits += 8;
        while bits >= WIDTH {
            let x = (acc & mask) as u8;
            acc >>= WIDTH;
            bits -= WIDTH;
            if x < limit {
                if kept == out.len() {
                    return true;
                }
                out[kept] = x + addend;
                kept += 1;
            }
        }
    }
    kept == out.len()
}

/// Ones and zeros, `ones` of them ones, shuffled by the block.
pub fn shuffle(block: &[u8], ones: usize, out: &mut [u8]) -> bool {
    for (at, x) in out.iter_mut().enumerate() {
        *x = u8::from(at < ones);
    }
    let mut fields = block.chunks_exact(2);
    for j in (1..out.len()).rev() {
        let choices = j as u32 + 1;
        let limit = 65536 / choices * choices;
        loop {
            let Some(field) = fields.next() else { return false };
            let r = u32::from(u16::from_le_bytes([field[0], field[1]]));
            if r < limit {
                out.swap(j, (r % choices) as usize);
                break;
            }
        }
    }
    true
}
