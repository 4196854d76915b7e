//! Lines read and written through C, beside the independent program: the answer, the whole image,
//! the whole buffer and the length.

mod kinds;
mod rates;

use peer::harness::{Comparison, Tally, LEAST};
use peer::line::cases::{any_image, by_length, fields, joined, some_rate, texts, valid};
use peer::line::{image, Profile, LONGEST};
use peer::rng::Rng;
use peer::table::{BUILT_IN, BUILT_IN_IMAGE};
use peer::{archive, entries, line};

const IMAGE: usize = line::IMAGE;

fn reader() -> Comparison {
    let proved = |line: &[u8], out: &mut [u8]| archive::read_line(&BUILT_IN_IMAGE, line, out);
    let plain = |line: &[u8], out: &mut [u8]| entries::read_line(&BUILT_IN_IMAGE, line, out);
    Comparison::new("read_line", proved, plain)
}

fn written(profile: &Profile) -> Vec<u8> {
    line::write_line(&BUILT_IN, profile).expect("valid")
}

fn line_of(rng: &mut Rng) -> Vec<u8> {
    written(&valid(rng))
}

/// A profile without a rate point, and the same with one.
fn both_kinds(rng: &mut Rng) -> [Profile; 2] {
    let (profile, rate) = (valid(rng), some_rate(rng));
    [None, Some(rate)].map(|rate| Profile { rate, ..profile })
}

/// For each kind the shortest line, one of middle length, and the longest.
fn some_lengths() -> Vec<Vec<u8>> {
    let three = |all: Vec<Profile>| [0, all.len() / 2, all.len() - 1].map(|at| written(&all[at]));
    [false, true].into_iter().flat_map(|with_rate| three(by_length(with_rate))).collect()
}

/// Valid lines, often at the ends of several ranges. What is read from one is written as that line.
#[test]
fn valid_lines() {
    let (mut c, mut rng) = (reader(), Rng::new(0x6C69_6E65));
    while c.missing() > 0 {
        for line in both_kinds(&mut rng).each_ref().map(written) {
            c.demand(&line, IMAGE, 0);
            let (mut image, mut out) = ([0; IMAGE], [0; LONGEST]);
            assert_eq!(archive::read_line(&BUILT_IN_IMAGE, &line, &mut image), 0);
            assert_eq!(archive::write_line(&BUILT_IN_IMAGE, &image, &mut out, 0), (0, line.len()));
            assert_eq!(out[..line.len()], line);
        }
    }
    c.finish(&[0]);
}

/// At both ends of every class the line with its letter is read, and with any other letter refused.
#[test]
fn classes_at_their_ends() {
    let ends = [(100, 'A'), (139, 'A'), (140, 'B'), (259, 'B'), (260, 'C'), (519, 'C'), (520, 'D'), (1000, 'D')];
    let kinds = [("GP1", ""), ("GP2", ",2000,500")];
    for ((volts, class), (tag, end)) in ends.into_iter().flat_map(|at| kinds.map(|kind| (at, kind))) {
        for letter in 'A'..='D' {
            let line = format!("{tag},XA,{letter},12,{volts},50,1150,100,800,1500,1500,100,-2500,100{end}\n");
            let mut image = [0; IMAGE];
            let wanted = if letter == class { 0 } else { 5 };
            assert_eq!(
                archive::read_line(&BUILT_IN_IMAGE, line.as_bytes(), &mut image),
                wanted,
                "{tag} {volts} {letter}"
            );
            assert_eq!(image[3], if letter == class { letter as u8 } else { 0 }, "{tag} {volts} {letter}");
        }
    }
}

/// Each field in turn holds each end of its range, what stands beside it, and other spellings; then
/// two fields at once.
#[test]
fn every_boundary() {
    let (mut c, mut rng) = (reader(), Rng::new(0x626F_756E));
    while c.missing() > 0 {
        let whole = fields(&valid(&mut rng));
        for at in 0..whole.len() {
            for text in texts(at) {
                let mut one = whole.clone();
                one[at] = text;
                c.agree(&joined(&one), IMAGE);
                let second = rng.below(whole.len());
                let choice = texts(second);
                one[second] = choice[rng.below(choice.len())].clone();
                c.agree(&joined(&one), IMAGE);
            }
        }
    }
    c.finish(&[0, 1, 5]);
}

/// Every byte of some lines changed to every other value, the shortest and the longest of each kind among them.
#[test]
fn every_byte() {
    let (mut c, mut rng) = (reader(), Rng::new(0x6279_7465));
    let mut lines = some_lengths();
    lines.extend([
        b"GP1,ZZ,D,4294967295,1000,60,1500,60000,999,60000,5000,60000,-5000,60000\n".to_vec(),
        b"GP2,ZZ,D,4294967295,1000,60,1500,60000,999,60000,5000,60000,-5000,60000,10000,60000\n".to_vec(),
    ]);
    lines.extend((0..4).map(|_| line_of(&mut rng)));
    for line in lines {
        for at in 0..line.len() {
            for byte in 0..=255 {
                let mut other = line.clone();
                other[at] = byte;
                c.agree(&other, IMAGE);
            }
        }
    }
    c.finish(&[0, 5]);
}

/// One edit of a line: a byte or a field taken out or put in, bytes exchanged, or noise.
fn edited(rng: &mut Rng, mut line: Vec<u8>) -> Vec<u8> {
    let at = rng.below(line.len());
    let usual = b"0123456789,-+\nAGP1 \r\"";
    match rng.below(7) {
        0 => line.truncate(at),
        1 => drop(line.remove(at)),
        2 => line.insert(at, usual[rng.below(usual.len())]),
        3 => {
            let other = rng.below(line.len());
            line.swap(at, other);
        }
        4 => line.extend(rng.bytes(1 + at % 8)),
        5 => {
            let mut parts: Vec<&[u8]> = line.split(|&byte| byte == b',').collect();
            let (from, to) = (rng.below(parts.len()), rng.below(parts.len()));
            let part = parts[from];
            match rng.below(3) {
                0 => drop(parts.remove(from)),
                1 => parts.insert(to, part),
                _ => parts.swap(from, to),
            }
            line = parts.join(&b',');
        }
        _ => rng.fill(&mut line[at..]),
    }
    line
}

/// Lines cut, lengthened and edited, random bytes of every length, and images of wrong sizes.
#[test]
fn anything_else() {
    let (mut c, mut rng) = (reader(), Rng::new(0x616E_7974));
    let lines = both_kinds(&mut rng).each_ref().map(written);
    for len in 0..=200 {
        for line in &lines {
            let mut other = line.clone();
            other.resize(len, b'\n');
            c.agree(&other, IMAGE);
            c.demand(line, len, u8::from(len != IMAGE));
        }
        c.agree(&rng.bytes(len), IMAGE);
        c.agree(&rng.numbers(len, 128), IMAGE);
        c.demand(b"short", len, 1);
        c.demand(&[b'x'; 50], len, if len == IMAGE { 5 } else { 1 });
    }
    while c.missing() > 0 {
        let mut line = line_of(&mut rng);
        for _ in 0..1 + rng.below(3) {
            if !line.is_empty() {
                line = edited(&mut rng, line);
            }
        }
        c.agree(&line, IMAGE);
    }
    c.finish(&[0, 1, 5]);
}

/// Compares one writing, with some old length.
fn write(t: &mut Tally, image: &[u8], room: usize) -> u8 {
    let old = t.inputs().wrapping_mul(0x9E37_79B9);
    let shown = || format!("{image:02x?} into {room} bytes");
    let proved = |out: &mut [u8]| archive::write_line(&BUILT_IN_IMAGE, image, out, old);
    t.both(room, proved, |out| entries::write_line(&BUILT_IN_IMAGE, image, out, old), shown)
}

#[test]
fn writing() {
    let (mut t, mut rng) = (Tally::new("write_line"), Rng::new(0x7772_6974));
    for good in both_kinds(&mut rng).each_ref().map(image) {
        for len in 0..=200 {
            assert_eq!(write(&mut t, &good, len), u8::from(len != LONGEST));
            assert_eq!(write(&mut t, &[0xFF; IMAGE], len), if len == LONGEST { 5 } else { 1 });
            let mut other = good.to_vec();
            other.resize(len, 0);
            assert_eq!(write(&mut t, &other, LONGEST), u8::from(len != IMAGE));
        }
        for at in 0..IMAGE {
            for byte in 0..=255 {
                let mut other = good;
                other[at] = byte;
                write(&mut t, &other, LONGEST);
            }
        }
    }
    while t.inputs() < LEAST {
        write(&mut t, &any_image(&mut rng), LONGEST);
    }
    t.finish(LEAST, &[0, 1, 5]);
}
