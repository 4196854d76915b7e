//! Which draw is to blame for an answer 2.

use peer::keccak::{shake, SHAKE256_RATE};
use peer::refusal::SHORT_DRAW;
use peer::sizes::{Sizes, TINY};

/// The sizes of the crate `tiny_sizes`. The second challenge has no field to spare, and is still
/// short only once in some thirty thousand draws.
pub const SHAKE128: Sizes = Sizes { hash: shake, second_challenge_block: 8, ..TINY };
pub const SHAKE256: Sizes = Sizes { rate: SHAKE256_RATE, ..SHAKE128 };

/// Every draw of the scheme.
#[derive(Clone, Copy, Debug, PartialEq, Eq, PartialOrd, Ord)]
pub enum Place {
    Matrix,
    KeyExponents,
    RoundExponents,
    RoundValues,
    FirstChallenges,
    SecondChallenge,
}

/// A block from which no draw of these sizes is short in practice.
const ROOMY: usize = 64;

/// The draw that alone made the answer 2: with a roomy block for it, the answer is another one. None
/// where the answer is not 2, or where two draws are short. `exponents` are those that the entry draws.
pub fn to_blame(sizes: &Sizes, exponents: Place, answer: impl Fn(&Sizes) -> u8) -> Option<Place> {
    if answer(sizes) != SHORT_DRAW {
        return None;
    }
    let roomy = [
        (Place::Matrix, Sizes { matrix_block: ROOMY, ..*sizes }),
        (exponents, Sizes { exponents_block: ROOMY, ..*sizes }),
        (Place::RoundValues, Sizes { mask_values_block: ROOMY, ..*sizes }),
        (Place::FirstChallenges, Sizes { first_challenges_block: ROOMY, ..*sizes }),
        (Place::SecondChallenge, Sizes { second_challenge_block: ROOMY, ..*sizes }),
    ];
    roomy.into_iter().find(|(_, sizes)| answer(sizes) != SHORT_DRAW).map(|(place, _)| place)
}
