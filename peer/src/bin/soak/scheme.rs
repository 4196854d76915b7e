//! Inputs for key making, signing, verifying and the round examiner. The fast plain program judges:
//! whole signatures are dear.

use crate::lent::shown;
use crate::turn::{damaged, number, resized, Turn};
use crate::world::{Signed, SHORT_MESSAGES};
use peer::rng::Rng;
use peer::scheme::{verify_round as plain_round, RoundCase};
use peer::sizes::Sizes;

/// One of four has the right sizes, and of the others again one of four.
pub fn make_key(t: &mut Turn) -> u8 {
    let right = if t.one_in(4) { 16 } else { 8 };
    let (seed, room) = (t.bytes_of(|s| s.key_seed, right), t.size_of(Sizes::key, right));
    let category = t.world.category;
    t.pair(category.functions.make_key, category.plain.make_key, &seed, room)
}

/// Mostly short; now and then the longest, or, for a refusal, longer.
fn message_len(t: &mut Turn, whole: bool) -> usize {
    let (longest, rng) = (t.sizes().message, &mut t.rng);
    match rng.below(200) {
        0 => longest - rng.below(2),
        1..=9 if !whole => longest + 1 + rng.below(2) * rng.below(500),
        10..=20 => rng.below(2_000),
        _ => rng.below(250),
    }
}

/// One of 50 has the right sizes, and of the others few: most are refused for one size or several.
pub fn sign(t: &mut Turn) -> u8 {
    let whole = t.one_in(50);
    let right = if whole { 16 } else { 6 };
    let (seeds, len) = (t.seeds(right), message_len(t, whole));
    let (message, room) = (t.rng.bytes(len), t.size_of(Sizes::signature, right));
    compare_sign(t, &seeds, &message, room)
}

fn compare_sign(t: &mut Turn, seeds: &[Vec<u8>; 3], message: &[u8], room: usize) -> u8 {
    let ([seed, master, salt], category) = (seeds, t.world.category);
    let mut expected = t.rng.bytes(room);
    let lent = t.lend_all([seed, master, salt, message]);
    let mut out = t.lend(&expected);
    let [(a, b), (c, d), (e, f), (g, h)] = lent.each_ref().map(|l| (l.pointer(), l.len()));
    // SAFETY: the buffers are alive for the call and do not overlap.
    let answer = unsafe { (category.functions.sign)(a, b, c, d, e, f, g, h, out.pointer_mut(), out.len()) };
    let due = (category.plain.sign)(seed, master, salt, message, &mut expected);
    let inputs = || [seed, master, salt, message].map(shown).join(", ");
    assert_eq!(answer, due, "answer on {} into {room} bytes", inputs());
    lent.iter().for_each(|l| l.demand_unchanged());
    out.demand(&expected);
    answer
}

/// What `verify` is asked: mostly a signature that holds with one thing changed.
fn asked(t: &mut Turn) -> [Vec<u8>; 3] {
    let Signed { key, message, signature } = t.pick(&t.world.signed);
    let [mut key, mut message, mut signature] = [key, message, signature].map(Vec::clone);
    let (head, rng) = (t.sizes().salt + 2 * t.sizes().digest, &mut t.rng);
    match rng.below(16) {
        0 => (),
        1 | 2 => key = damaged(rng, &key),
        3 => message = damaged(rng, &message),
        4 => message = resized(rng, &message, 0),
        5 => rng.fill(&mut signature[head..]),
        6 => rng.fill(&mut signature),
        7 => (key, signature) = (damaged(rng, &key), damaged(rng, &signature)),
        8 => rng.fill(&mut signature[..head]),
        _ => signature = damaged(rng, &signature),
    }
    [key, message, signature]
}

/// One or several of the three in a wrong size.
fn missized(t: &mut Turn) -> [Vec<u8>; 3] {
    let Signed { key, message, signature } = t.pick(&t.world.signed[..SHORT_MESSAGES]);
    let (s, rng) = (t.sizes(), &mut t.rng);
    let mut all = [resized(rng, key, 8), message.clone(), resized(rng, signature, 8)];
    if all[0].len() == s.key() && all[2].len() == s.signature() || rng.below(16) == 0 {
        all[1] = vec![0x5A; s.message + 1 + rng.below(2) * rng.below(500)];
    }
    all
}

/// Key or signature of another category, or both with the message that they hold for.
fn of_another(t: &mut Turn) -> [Vec<u8>; 3] {
    let (own, other) = (t.pick(&t.world.signed[..SHORT_MESSAGES]), t.other());
    let other = t.pick(&other.signed[..SHORT_MESSAGES]);
    let [key, message, signature] = match t.rng.below(3) {
        0 => [&other.key, &own.message, &own.signature],
        1 => [&own.key, &own.message, &other.signature],
        _ => [&other.key, &other.message, &other.signature],
    };
    [key, message, signature].map(Vec::clone)
}

/// One of eight is looked at beyond its sizes.
pub fn verify(t: &mut Turn) -> u8 {
    let [key, message, signature] = match t.rng.below(8) {
        0 => asked(t),
        1 => of_another(t),
        _ => missized(t),
    };
    let category = t.world.category;
    let lent = t.lend_all([&key, &message, &signature]);
    let [(a, b), (c, d), (e, f)] = lent.each_ref().map(|l| (l.pointer(), l.len()));
    // SAFETY: as above.
    let answer = unsafe { (category.functions.verify)(a, b, c, d, e, f) };
    let due = (category.plain.verify)(&key, &message, &signature);
    assert_eq!(answer, due, "answer on {} {} {}", shown(&key), shown(&message), shown(&signature));
    lent.iter().for_each(|l| l.demand_unchanged());
    answer
}

/// Every buffer of a round.
fn buffers(case: &mut RoundCase) -> [&mut Vec<u8>; 6] {
    let RoundCase { key, salt, commitment_0, commitment_1, response, reply, .. } = case;
    [key, salt, commitment_0, commitment_1, response, reply]
}

/// A buffer damaged, of a wrong size or of another category, or a number that may be anything.
fn spoil(rng: &mut Rng, case: &mut RoundCase, other: &RoundCase) {
    let part = rng.below(6);
    match rng.below(9) {
        0..=2 => {
            let part = &mut buffers(case)[part];
            **part = resized(rng, part, 0);
        }
        3 | 4 => {
            let part = &mut buffers(case)[part];
            **part = damaged(rng, part);
        }
        5 => case.round = number(rng),
        6 => case.first_challenge = number(rng),
        7 => case.second_challenge = number(rng),
        _ => buffers(case)[part].clone_from(buffers(&mut other.clone())[part]),
    }
}

/// A round that holds, mostly with one or two faults; one of 16 is of another category.
pub fn verify_round(t: &mut Turn) -> u8 {
    let other = t.other();
    let other = t.pick(&other.rounds);
    let mut case = if t.one_in(16) { other.clone() } else { t.pick(&t.world.rounds).clone() };
    for _ in 0..[0, 1, 1, 2, 2, 3][t.rng.below(6)] {
        spoil(&mut t.rng, &mut case, other);
    }
    compare_round(t, &case)
}

fn compare_round(t: &mut Turn, case: &RoundCase) -> u8 {
    let RoundCase { key, salt, commitment_0, commitment_1, response, reply, .. } = case;
    let lent = t.lend_all([key, salt, commitment_0, commitment_1, response, reply]);
    let [(a, b), (c, d), (e, f), (g, h), (i, j), (k, l)] = lent.each_ref().map(|l| (l.pointer(), l.len()));
    let (round, first, second) = (case.round, case.first_challenge, case.second_challenge);
    let verify_round = t.world.category.functions.verify_round;
    // SAFETY: as above.
    let answer = unsafe { verify_round(a, b, c, d, round, e, f, g, h, first, i, j, second, k, l) };
    assert_eq!(answer, plain_round(t.sizes(), case), "answer on {case:02x?}");
    lent.iter().for_each(|l| l.demand_unchanged());
    answer
}
