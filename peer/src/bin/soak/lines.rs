//! Inputs for lines read, written and evaluated, and for the preview.

use crate::lent::shown;
use crate::tables;
use crate::turn::{damaged, number, resized, size, Turn};
use peer::archive::c;
use peer::entries;
use peer::evaluate::cases::any_of;
use peer::evaluate::{evaluate_line as plain_evaluate_line, LONGEST_INPUT};
use peer::line::cases::{any_image, by_length, fields, joined, some_rate, texts, valid};
use peer::line::{image as image_of, Profile, IMAGE, LONGEST, RATE, SHORTEST};
use peer::preview::cases::{any, any_under};
use peer::preview::{preview as plain_preview, LISTING};
use peer::rng::Rng;
use peer::table::cases::some_profile;
use peer::table::{Table, BUILT_IN};

/// A profile: under the built-in classes a valid one, and else mostly. Of those one of eight is chosen by the length of
/// its line: the shortest of its kind, the longest, or any.
pub fn profile(rng: &mut Rng, table: &Table) -> Profile {
    if *table != BUILT_IN {
        return some_profile(rng, table);
    }
    if rng.below(8) > 0 {
        return valid(rng);
    }
    let all = by_length(rng.below(2) == 0);
    all[[0, all.len() - 1, rng.below(all.len())][rng.below(3)]]
}

/// A line with one or two fields at or beside an end of its range, or spelt otherwise. The last two, where the kinds
/// differ, come more often.
fn at_a_boundary(rng: &mut Rng, mut all: Vec<String>) -> Vec<u8> {
    for _ in 0..1 + rng.below(2) {
        let at = if rng.below(4) == 0 { all.len() - 1 - rng.below(2) } else { rng.below(all.len()) };
        let choice = texts(at);
        all[at] = choice[rng.below(choice.len())].clone();
    }
    joined(&all)
}

/// The fields of a line on its way to the other kind: they have that kind's tag, its last fields, or both. One of four
/// has a field too few or too many.
fn between_kinds(rng: &mut Rng, profile: &Profile) -> Vec<String> {
    let rate = if profile.rate.is_none() { Some(some_rate(rng)) } else { None };
    let (own, other) = (&fields(profile), &fields(&Profile { rate, ..*profile }));
    let (tag, rest) = [(own, other), (other, own), (other, other)][rng.below(3)];
    let mut all = [&tag[..1], &rest[1..]].concat();
    match rng.below(8) {
        0 => drop(all.pop()),
        1 => all.extend_from_within(all.len() - 1..),
        _ => (),
    }
    all
}

/// A line with a byte taken out, put in or exchanged, or with a field moved.
fn edited(rng: &mut Rng, mut line: Vec<u8>) -> Vec<u8> {
    let usual = b"0123456789,-+\nAGP1 \r\"";
    let (at, other) = (rng.below(line.len()), rng.below(line.len()));
    match rng.below(5) {
        0 => drop(line.remove(at)),
        1 => line.insert(at, usual[rng.below(usual.len())]),
        2 => line[at] = usual[rng.below(usual.len())],
        3 => line.swap(at, other),
        _ => {
            let mut all: Vec<&[u8]> = line.split(|&byte| byte == b',').collect();
            let (from, to) = (at % all.len(), other % all.len());
            all.swap(from, to);
            line = all.join(&b',');
        }
    }
    line
}

/// Any line of either kind: mostly valid under the table, at a boundary, between the kinds, edited, damaged, of another
/// length, or noise.
pub fn line(rng: &mut Rng, table: &Table) -> Vec<u8> {
    let profile = profile(rng, table);
    let line = joined(&fields(&profile));
    match rng.below(12) {
        0..=2 => line,
        3 | 4 => at_a_boundary(rng, fields(&profile)),
        5 => joined(&between_kinds(rng, &profile)),
        6 => {
            let all = between_kinds(rng, &profile);
            at_a_boundary(rng, all)
        }
        7 | 8 => edited(rng, line),
        9 => damaged(rng, &line),
        10 => resized(rng, &line, 0),
        _ => {
            let len = [SHORTEST - 1, SHORTEST, LONGEST, LONGEST + 1, rng.below(100)][rng.below(5)];
            rng.numbers(len, 128)
        }
    }
}

pub fn read_line(t: &mut Turn) -> u8 {
    let (table, lent) = tables::lent(&mut t.rng);
    let (line, room) = (line(&mut t.rng, &table), size(&mut t.rng, IMAGE, 15));
    compare_read_line(t, &lent, &line, room)
}

fn compare_read_line(t: &mut Turn, table: &[u8], line: &[u8], room: usize) -> u8 {
    let mut expected = t.rng.bytes(room);
    let (lent, mut out) = (t.lend_all([table, line]), t.lend(&expected));
    let [(a, b), (c, d)] = lent.each_ref().map(|l| (l.pointer(), l.len()));
    // SAFETY: the buffers are alive for the call and do not overlap.
    let answer = unsafe { c::gridprofile_read_line(a, b, c, d, out.pointer_mut(), out.len()) };
    let due = entries::read_line(table, line, &mut expected);
    assert_eq!(answer, due, "answer on {} into {room} bytes, table {}", shown(line), shown(table));
    lent.iter().for_each(|l| l.demand_unchanged());
    out.demand(&expected);
    answer
}

/// Any image. In one of four any number stands for the presence of the rate point; one of eight has none, over noise.
/// Class and volts are mostly the table's.
pub fn image(rng: &mut Rng, table: &Table) -> [u8; IMAGE] {
    let of_profile = *table != BUILT_IN && rng.below(4) > 0 || rng.below(8) == 0;
    let mut image = if of_profile { image_of(&profile(rng, table)) } else { any_image(rng) };
    let (presence, rest) = image[RATE..].split_at_mut(4);
    match rng.below(8) {
        0 | 1 => presence.copy_from_slice(&number(rng).to_le_bytes()),
        2 => {
            presence.fill(0);
            rng.fill(rest);
        }
        _ => (),
    }
    image
}

pub fn write_line(t: &mut Turn) -> u8 {
    let (table, lent) = tables::lent(&mut t.rng);
    let image = image(&mut t.rng, &table);
    let (image, room) = (resized(&mut t.rng, &image, 15), size(&mut t.rng, LONGEST, 15));
    t.length(c::gridprofile_write_line, entries::write_line, &lent, &image, room)
}

/// Mostly lines with formulas, good and just not. One of eight is any other line; one of 16 of these inputs is damaged,
/// and one of another length.
pub fn evaluate_line(t: &mut Turn) -> u8 {
    let (table, lent) = tables::lent(&mut t.rng);
    let profile = if table == BUILT_IN { valid(&mut t.rng) } else { some_profile(&mut t.rng, &table) };
    let mut input = if t.one_in(8) { line(&mut t.rng, &table) } else { any_of(&mut t.rng, &profile) };
    match t.rng.below(32) {
        0 | 1 => input = damaged(&mut t.rng, &input),
        2 => input = resized(&mut t.rng, &input, 0),
        3 => {
            let (len, fill) = (size(&mut t.rng, LONGEST_INPUT, 0), [b'\n', b'0'][t.rng.below(2)]);
            input.resize(len, fill);
        }
        _ => (),
    }
    let room = size(&mut t.rng, LONGEST, 15);
    t.length(c::gridprofile_evaluate_line, plain_evaluate_line, &lent, &input, room)
}

/// One of two is refused for its room; one of 1,000 is about as long as an input may be. One of four begins with any
/// line.
pub fn preview(t: &mut Turn) -> u8 {
    let (table, lent) = tables::lent(&mut t.rng);
    let mut input = if table == BUILT_IN { any(&mut t.rng) } else { any_under(&mut t.rng, &table) };
    if t.one_in(4) {
        input.splice(..0, line(&mut t.rng, &table));
    }
    if t.one_in(1_000) {
        let len = 65_534 + t.rng.below(5);
        input = input.iter().chain(b"\n").copied().cycle().take(len).collect();
    }
    let room = size(&mut t.rng, LISTING, 8);
    t.length(c::gridprofile_preview, plain_preview, &lent, &input, room)
}
