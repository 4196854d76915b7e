//! The reader and the writer undo each other, and the worked lines.

use super::cases::{any_image, by_length, fields, joined, some_rate, texts, valid, PRESENCES};
use super::*;
use crate::rng::Rng;
use crate::table::BUILT_IN;

const LINE: &str = "GP1,XA,B,12,230,50,1150,100,800,1500,1500,100,-2500,100\n";
const RATE_LINE: &str = "GP2,XA,B,13,230,50,1150,100,800,1500,1500,100,-2500,100,2000,500\n";

#[test]
fn worked_lines() {
    let trip = |kind, limit, delay| Trip { kind, limit, delay };
    let trips = [
        trip(Kind::Share, 1150, 100),
        trip(Kind::Share, 800, 1500),
        trip(Kind::Above, 1500, 100),
        trip(Kind::Below, 2500, 100),
    ];
    let without = Profile { country: *b"XA", class: b'B', serial: 12, volts: 230, hertz: 50, trips, rate: None };
    let with = Profile { serial: 13, rate: Some(Rate { limit: 2_000, delay: 500 }), ..without };
    for (line, profile) in [(LINE, without), (RATE_LINE, with)] {
        assert_eq!(read_line(&BUILT_IN, line.as_bytes()), Ok(profile));
        assert_eq!(write_line(&BUILT_IN, &profile), Ok(line.as_bytes().to_vec()));
        assert_eq!(write_line(&BUILT_IN, &Profile { class: b'C', ..profile }), Err(5));
    }
}

/// The same as bytes. A point that is absent is three zeros; the used byte, country and serial stand first.
#[test]
fn worked_images() {
    let rates = [[0; 12], [1, 0, 0, 0, 0xD0, 7, 0, 0, 0xF4, 1, 0, 0]];
    for ((line, serial), rate) in [(LINE, 12), (RATE_LINE, 13)].into_iter().zip(rates) {
        let bytes = image(&read_line(&BUILT_IN, line.as_bytes()).unwrap());
        assert_eq!(bytes[..8], [1, b'X', b'A', b'B', serial, 0, 0, 0]);
        assert_eq!(bytes[52..64], [2, 0, 0, 0, 0xC4, 9, 0, 0, 100, 0, 0, 0]);
        assert_eq!(bytes[64..], rate);
    }
}

/// Where the presence is 0 the two numbers after it do not count; any other presence is written as 1.
#[test]
fn any_presence() {
    let mut rng = Rng::new(33);
    for presence in PRESENCES {
        let rate = some_rate(&mut rng);
        let present = Profile { rate: Some(rate), ..valid(&mut rng) };
        let mut bytes = image(&present);
        bytes[64..68].copy_from_slice(&presence.to_le_bytes());
        let wanted = Profile { rate: (presence > 0).then_some(rate), ..present };
        assert_eq!(meaning(&bytes), wanted, "{presence}");
        let written = image(&wanted);
        assert_eq!(written[..64], bytes[..64]);
        assert_eq!(written[64..68], [u8::from(presence > 0), 0, 0, 0]);
        assert!(if presence > 0 { written[68..] == bytes[68..] } else { written[68..] == [0; 8] });
        bytes[68..].fill(0xFF);
        let (line, one) = (write_line(&BUILT_IN, &meaning(&bytes)), Profile { rate: None, ..present });
        assert_eq!(line, if presence > 0 { Err(5) } else { write_line(&BUILT_IN, &one) }, "{presence}");
    }
}

#[test]
fn a_rate_and_its_delay_at_their_ends() {
    let profile = read_line(&BUILT_IN, RATE_LINE.as_bytes()).unwrap();
    let is_valid = |limit, delay| Profile { rate: Some(Rate { limit, delay }), ..profile }.is_valid(&BUILT_IN);
    let wanted = [false, false, true, true, false, false];
    assert_eq!([0, 99, 100, 10_000, 10_001, u32::MAX].map(|limit| is_valid(limit, 500)), wanted);
    assert_eq!([0, 19, 20, 60_000, 60_001, u32::MAX].map(|delay| is_valid(2_000, delay)), wanted);
}

#[test]
fn classes_at_their_ends() {
    let classes = [99, 100, 139, 140, 259, 260, 519, 520, 1000, 1001].map(|volts| BUILT_IN.class_of(volts));
    let letters = [b'A', b'A', b'B', b'B', b'C', b'C', b'D', b'D'].map(Some);
    assert_eq!(classes[0], None);
    assert_eq!(classes[1..9], letters);
    assert_eq!(classes[9], None);
}

#[test]
fn lines_and_profiles_undo_each_other() {
    let (mut rng, mut lengths) = (Rng::new(30), [Vec::new(), Vec::new()]);
    for _ in 0..20_000 {
        let profile = valid(&mut rng);
        let line = write_line(&BUILT_IN, &profile).unwrap();
        assert_eq!(read_line(&BUILT_IN, &line), Ok(profile));
        assert_eq!(meaning(&image(&profile)), profile);
        assert!(line.starts_with(if profile.rate.is_some() { b"GP2," } else { b"GP1," }));
        lengths[usize::from(profile.rate.is_some())].push(line.len());
    }
    for (lengths, range) in lengths.iter().zip([42..=72, 49..=84]) {
        assert!(lengths.len() > 8_000 && lengths.iter().all(|len| range.contains(len)));
    }
}

#[test]
fn the_shortest_and_the_longest_line() {
    let lines = [
        ("GP1,AA,A,1,100,50,1001,20,1,20,1,20,-1,20\n", 42),
        ("GP1,ZZ,D,4294967295,1000,60,1500,60000,999,60000,5000,60000,-5000,60000\n", 72),
        ("GP2,AA,A,1,100,50,1001,20,1,20,1,20,-1,20,100,20\n", 49),
        ("GP2,ZZ,D,4294967295,1000,60,1500,60000,999,60000,5000,60000,-5000,60000,10000,60000\n", 84),
    ];
    for (line, len) in lines {
        assert_eq!(line.len(), len);
        assert!(read_line(&BUILT_IN, line.as_bytes()).is_ok());
    }
    assert_eq!((SHORTEST, LONGEST, IMAGE), (42, 84, 76));
}

#[test]
fn a_valid_line_of_every_length() {
    for (with_rate, range) in [(false, 42..=72), (true, 49..=84)] {
        let all = by_length(with_rate);
        assert!(all.iter().all(|profile| profile.rate.is_some() == with_rate));
        assert!(all.iter().map(|profile| write_line(&BUILT_IN, profile).unwrap().len()).eq(range));
    }
}

/// What is read from any text is written as that text: so no line has two spellings.
#[test]
fn no_other_spelling() {
    let mut rng = Rng::new(31);
    let mut read = 0;
    for _ in 0..40 {
        let whole = fields(&valid(&mut rng));
        for at in 0..whole.len() {
            for text in texts(at) {
                let mut other = whole.clone();
                other[at] = text;
                let line = joined(&other);
                if let Ok(profile) = read_line(&BUILT_IN, &line) {
                    assert_eq!(write_line(&BUILT_IN, &profile), Ok(line));
                    read += 1;
                }
            }
        }
    }
    assert!(read > 1_000, "{read}");
}

#[test]
fn what_is_no_line() {
    let bad = ["\n\n", "\r\n", "", ",\n", ",1\n", " \n"];
    for line in [LINE, RATE_LINE] {
        for end in bad {
            assert_eq!(read_line(&BUILT_IN, line.replace('\n', end).as_bytes()), Err(5), "{end:?}");
        }
        assert_eq!(read_line(&BUILT_IN, &line.as_bytes()[..41]), Err(1));
    }
    assert_eq!([84, 85].map(|len| read_line(&BUILT_IN, &vec![b'1'; len])), [Err(5), Err(1)]);
    assert_eq!(read_line(&BUILT_IN, &[0xFF; 50]), Err(5));
}

/// A tag stands before its own fields and before no others.
#[test]
fn a_tag_and_the_number_of_fields() {
    for tag in ["GP1", "GP2", "GP0", "GP3", "gp1", "gp2"] {
        for count in 13..=18 {
            let line = format!("{tag},XA,B,12,230,50,1150,100,800,1500,1500,100,-2500{}\n", ",100".repeat(count - 13));
            let is_line = (tag, count) == ("GP1", 14) || (tag, count) == ("GP2", 16);
            assert_eq!(read_line(&BUILT_IN, line.as_bytes()).is_ok(), is_line, "{line:?}");
        }
    }
}

#[test]
fn some_images_mean_valid_profiles_and_some_do_not() {
    let mut rng = Rng::new(32);
    let valid = (0..2_000).filter(|_| meaning(&any_image(&mut rng)).is_valid(&BUILT_IN)).count();
    assert!((300..1_500).contains(&valid), "{valid}");
}
