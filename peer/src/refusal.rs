//! The numbers that an entry answers. 0 is "done"; the bytes lent to a refusing entry stay as they were.

/// The number of the refusal that applies first.
pub type Refusal = u8;

pub const BAD_SIZE: Refusal = 1;
pub const SHORT_DRAW: Refusal = 2;
pub const BAD_FIELD: Refusal = 3;
pub const MISMATCH: Refusal = 4;
pub const BAD_PROFILE: Refusal = 5;
pub const OTHER_DEVICE: Refusal = 6;
pub const OLD_SERIAL: Refusal = 7;
pub const STORE_FULL: Refusal = 8;
pub const NOT_STORED: Refusal = 9;
pub const BAD_DEVICE: Refusal = 10;
pub const BAD_FORMULA: Refusal = 11;
pub const BAD_STEP: Refusal = 12;
pub const BAD_TABLE: Refusal = 13;
pub const STORE_IN_USE: Refusal = 14;

/// How many numbers there are: "done" and the refusals.
pub const ANSWERS: usize = 15;

/// Refuses by `refusal` unless `ok`.
pub fn demand(ok: bool, refusal: Refusal) -> Result<(), Refusal> {
    if ok {
        Ok(())
    } else {
        Err(refusal)
    }
}

/// Answers for an entry that makes `out`: stores what was made, or leaves it as it was.
pub fn answer(made: Result<Vec<u8>, Refusal>, out: &mut [u8]) -> u8 {
    match made {
        Ok(bytes) => {
            out.copy_from_slice(&bytes);
            0
        }
        Err(refusal) => refusal,
    }
}

/// Answers for an entry that writes at the front of `out` and gives the length: past it, and after a
/// refusal, everything stays as it was.
pub fn answer_length(made: Result<Vec<u8>, Refusal>, out: &mut [u8], length: usize) -> (u8, usize) {
    match made {
        Ok(bytes) => {
            out[..bytes.len()].copy_from_slice(&bytes);
            (0, bytes.len())
        }
        Err(refusal) => (refusal, length),
    }
}
