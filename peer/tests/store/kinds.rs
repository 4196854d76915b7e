//! Profiles with a rate point and without, in one store.

use crate::held::Held;
use peer::archive::CATEGORIES;
use peer::line::cases::{by_length, some_rate, valid, PRESENCES};
use peer::line::{image, write_line, Profile, RATE};
use peer::rng::Rng;
use peer::store::{Device, STORE};
use peer::table::BUILT_IN;

/// A rate point comes, changes and goes: the serial alone decides.
#[test]
fn of_one_triple() {
    for category in &CATEGORIES {
        let mut held = Held::new(category, "kinds of one triple", &[0; STORE]);
        let (profile, mut rng) = (valid(&mut Rng::new(9)), Rng::new(10));
        let [one, other] = [(); 2].map(|()| Some(some_rate(&mut rng)));
        let steps = [(12, None), (12, one), (13, one), (13, None), (12, None), (14, other), (15, None), (16, one)];
        let mut stored = None;
        for ((serial, rate), wanted) in steps.into_iter().zip([0, 7, 0, 7, 7, 0, 0, 0]) {
            let next = Profile { serial, rate, ..profile };
            assert_eq!(held.put(&next), wanted, "{serial} {rate:?}");
            stored = if wanted == 0 { Some(next) } else { stored };
            held.demand(&stored.expect("the first is loaded"));
        }
        held.finish((8, &[0, 7]), (8, &[0]));
    }
}

/// Sixteen triples of both kinds in turns; a 17th finds no room; then each is replaced by the other kind.
#[test]
fn of_all_triples() {
    for category in &CATEGORIES {
        let mut held = Held::new(category, "kinds in a full store", &[0; STORE]);
        let mut rng = Rng::new(11);
        let mut all: Vec<Profile> = Vec::new();
        for at in 0..17 {
            let rate = (at % 2 == 0).then(|| some_rate(&mut rng));
            all.push(Profile { country: [b'Q', b'A' + at], serial: 1, rate, ..valid(&mut rng) });
            assert_eq!(held.put(&all[usize::from(at)]), if at < 16 { 0 } else { 8 });
        }
        all.truncate(16);
        all.iter().for_each(|profile| held.demand(profile));
        for at in 0..16 {
            let rate = if all[at].rate.is_some() { None } else { Some(some_rate(&mut rng)) };
            all[at] = Profile { serial: 2, rate, ..all[at] };
            assert_eq!(held.put(&all[at]), 0);
        }
        all.iter().for_each(|profile| held.demand(profile));
        held.finish((33, &[0, 8]), (32, &[0]));
    }
}

/// A signed line of every kind at the ends of the lengths, and one that breaks a rule.
#[test]
fn of_every_length() {
    for category in &CATEGORIES {
        let mut held = Held::new(category, "lengths of packages", &[0; STORE]);
        let lines = [(false, 42), (false, 72), (true, 49), (true, 72), (true, 73), (true, 84)];
        for (at, (with_rate, len)) in (0..).zip(lines) {
            let all = by_length(with_rate);
            let profile = Profile { country: [b'Q', b'A' + at], ..all[len - if with_rate { 49 } else { 42 }] };
            assert_eq!(write_line(&BUILT_IN, &profile).map(|line| line.len()), Ok(len));
            assert_eq!(held.put(&profile), 0);
            held.demand(&profile);
        }
        let lengths = [(41, 1), (42, 5), (48, 5), (49, 5), (72, 5), (73, 5), (84, 5), (85, 1)];
        for (tag, (len, wanted)) in [b"GP1,", b"GP2,"].into_iter().flat_map(|tag| lengths.map(|len| (tag, len))) {
            let mut line = tag.to_vec();
            line.resize(len, b'7');
            assert_eq!(held.load(&line, &Device { country: b"XA", class: 65, hertz: 50 }), wanted, "{len}");
        }
        held.finish((22, &[0, 1, 5]), (6, &[0]));
    }
}

/// A store with a slot for each presence, and with numbers after it that count only where it is not 0: what is looked
/// up is the line of its kind, and a load changes no other slot.
#[test]
fn of_every_presence() {
    for category in &CATEGORIES {
        let (mut rng, mut bytes, mut all) = (Rng::new(12), Vec::new(), Vec::new());
        for (at, presence) in (0..).zip(PRESENCES) {
            let rate = some_rate(&mut rng);
            let profile = Profile { country: [b'Q', b'A' + at], rate: Some(rate), serial: 7, ..valid(&mut rng) };
            let mut slot = image(&profile);
            slot[RATE..RATE + 4].copy_from_slice(&presence.to_le_bytes());
            if presence == 0 {
                rng.fill(&mut slot[RATE + 4..]);
            }
            bytes.extend(slot);
            all.push(Profile { rate: (presence != 0).then_some(rate), ..profile });
        }
        bytes.resize(STORE, 0);
        let mut held = Held::new(category, "presences", &bytes);
        all.push(Profile { country: *b"XA", ..all[0] });
        assert_eq!(held.put(&all[PRESENCES.len()]), 0);
        for profile in &all {
            held.demand(profile);
            assert_eq!(held.put(profile), 7);
        }
        held.finish((10, &[0, 7]), (9, &[0]));
    }
}
