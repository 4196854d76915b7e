//! Tables of stores: loaded, refused, and what they decide.

use super::*;
use crate::line::cases::{handed_out, valid_under};
use crate::table::cases::{any_image, file_of, image_with, sound, LISTED, RAILWAY, STRANGE};
use crate::table::{Row, BUILT_IN_ROWS};

/// The lines of the worked table and of the built-in classes.
const LINES: [&[u8]; 2] = [
    b"GP1,XA,R,12,750,50,1150,100,800,1500,1500,100,-2500,100\n",
    b"GP1,XA,D,12,750,50,1150,100,800,1500,1500,100,-2500,100\n",
];

/// A store with these profiles and this table.
fn under(table: &Table, profiles: &[Profile]) -> Vec<u8> {
    Store { profiles: profiles.to_vec(), table: table.clone() }.image()
}

/// Loads a line as if it were signed.
fn load_line(image: &mut [u8], line: &[u8], device: &Device) -> u8 {
    let s = CATEGORIES[0];
    let package = [&vec![0; s.signature()], line].concat();
    load(&s, image, &vec![0; s.key()], &package, device, &|_, _, _| 0)
}

fn device(class: u32) -> Device<'static> {
    Device { country: b"XA", class, hertz: 50 }
}

fn found(image: &[u8], device: &Device) -> Result<Vec<u8>, Refusal> {
    handed_out(|out, length| lookup(image, device, out, length))
}

#[test]
fn the_worked_table() {
    let mut image = vec![0; STORE];
    assert_eq!(load_table(&mut image, RAILWAY.as_bytes()), 0);
    assert_eq!(image, under(&read_table(RAILWAY.as_bytes()).unwrap(), &[]));
    for class in 0..300 {
        let wanted = if b"EMRT".map(u32::from).contains(&class) { 9 } else { 10 };
        assert_eq!(found(&image, &device(class)), Err(wanted), "{class}");
    }
    let answers = [(LINES[1], 'R'), (LINES[0], 'E'), (LINES[0], 'D'), (LINES[0], 'R'), (LINES[0], 'R')]
        .map(|(line, class)| load_line(&mut image, line, &device(class as u32)));
    assert_eq!(answers, [5, 6, 10, 0, 7]);
    assert_eq!(found(&image, &device(82)), Ok(LINES[0].to_vec()));
    let mut other = vec![0; STORE];
    assert_eq!([LINES[0], LINES[1]].map(|line| load_line(&mut other, line, &device(68))), [5, 0]);
}

/// 1 before 13, before 14; a table is replaced while nothing is stored, and the slots stay as they were.
#[test]
fn loads_of_tables() {
    let mut rng = Rng::new(43);
    for (_, file, is_sound) in LISTED {
        let table = read_table(file.as_bytes());
        let mut free = rng.bytes(STORE);
        free[..SLOTS].chunks_exact_mut(IMAGE).for_each(|slot| slot[0] = 0);
        let old = free.clone();
        assert_eq!(load_table(&mut free, file.as_bytes()), if is_sound { 0 } else { 13 }, "{file}");
        assert_eq!(free[..SLOTS], old[..SLOTS]);
        assert_eq!(free[SLOTS..], table.map_or(old[SLOTS..].to_vec(), |table| table.image().to_vec()));
        for (slot, mark) in (0..CAPACITY).flat_map(|slot| [1, 2, 0x80, 0xFF].map(|mark| (slot, mark))) {
            let mut used = old.clone();
            used[slot * IMAGE] = mark;
            let before = used.clone();
            assert_eq!(load_table(&mut used, file.as_bytes()), if is_sound { 14 } else { 13 }, "{file}");
            assert_eq!(used, before);
        }
        for len in [0, SLOTS, STORE - 1, STORE + 1] {
            let mut other = rng.bytes(len);
            let before = other.clone();
            assert_eq!(load_table(&mut other, file.as_bytes()), 1, "{len}");
            assert_eq!(other, before);
        }
    }
}

/// A load leaves the table's bytes as they were, also those that mean nothing.
#[test]
fn a_load_keeps_the_table() {
    let mut rng = Rng::new(44);
    for _ in 0..200 {
        let (table, mut noise) = (sound(&mut rng), BUILT_IN_IMAGE);
        rng.fill(&mut noise);
        let old = [&vec![0; SLOTS][..], &image_with(table.rows().len() as u32, table.rows(), &noise)].concat();
        let profile = valid_under(&mut rng, &table);
        let mut image = old.clone();
        let line = write_line(&table, &profile).unwrap();
        assert_eq!(load_line(&mut image, &line, &Device::of(&profile)), 0);
        assert!(wrote_one_slot(&old, &image, &profile));
        assert_eq!(found(&image, &Device::of(&profile)), Ok(line));
        *image.last_mut().unwrap() ^= 1;
        assert!(!wrote_one_slot(&old, &image, &profile));
    }
}

/// The letters of a table of any bytes are those that a device may be set to, whatever they are.
#[test]
fn letters_of_any_table() {
    let mut rng = Rng::new(45);
    for _ in 0..2_000 {
        let table = Table::from_image(&any_image(&mut rng));
        let image = under(&table, &[]);
        for class in STRANGE.into_iter().chain(0..100).chain(table.rows().iter().map(|row| row.letter)) {
            let is_letter = table.rows().iter().any(|row| row.letter == class);
            assert_eq!(found(&image, &device(class)), Err(if is_letter { 9 } else { 10 }), "{class}");
        }
    }
}

/// A letter that is no byte, or no letter from A to Z, finds no profile or one that breaks a rule.
#[test]
fn strange_letters() {
    for letter in STRANGE {
        let table = Table::of(&[Row { letter, low: 0, high: u32::MAX }, BUILT_IN_ROWS[3]]);
        let slot = Profile { class: letter as u8, country: *b"XA", hertz: 50, ..profile(b"XA", 3) };
        let mut image = under(&table, &[slot]);
        let wanted = if letter < 256 { 5 } else { 9 };
        assert_eq!(found(&image, &device(letter)), Err(wanted), "{letter}");
        assert_eq!(load_line(&mut image, LINES[1], &device(letter)), 5, "{letter}");
        let table = Table::of(&[BUILT_IN_ROWS[3], Row { letter, low: 0, high: u32::MAX }]);
        let mut image = under(&table, &[slot]);
        assert_eq!(load_line(&mut image, LINES[1], &device(letter)), 6, "{letter}");
    }
}

/// An image of another size has the built-in classes, whatever bytes it has.
#[test]
fn other_sizes() {
    let whole = under(&Table::of(&[Row::new(b'Q', 100, 1_000)]), &[]).repeat(2);
    for len in (0..=2 * STORE).step_by(76).chain([1, SLOTS, SLOTS + 315, STORE - 1, STORE, STORE + 1]) {
        let image = &whole[..len];
        let wanted = if len == STORE { [10, 9] } else { [1, 10] };
        assert_eq!([b'D', b'Q'].map(|class| found(image, &device(class.into()))), wanted.map(Err), "{len}");
        let answers = [b'D', b'Q'].map(|class| load_line(&mut image.to_vec(), LINES[1], &device(class.into())));
        assert_eq!(answers, if len == STORE { [10, 5] } else { [1, 10] }, "{len}");
    }
}

/// What was stored under one table and is read under another breaks a rule, if its class is another then.
#[test]
fn under_another_table() {
    let table = read_table(RAILWAY.as_bytes()).unwrap();
    let profile = read_line(&table, LINES[0]).unwrap();
    let measured = Measured { country: b"XA", hertz: 50, volts: 760 };
    let near = |image: &[u8]| handed_out(|out, length| nearest(image, &measured, out, length));
    assert_eq!(near(&under(&table, &[profile])), Ok(LINES[0].to_vec()));
    for other in [&file_of(&BUILT_IN_ROWS)[..], b"R,100,749\n", b"R,751,1000\n", b"Q,750,750\nR,751,900\n"] {
        let image = under(&read_table(other).unwrap(), &[profile]);
        assert_eq!(near(&image), Err(5));
        assert_eq!(found(&image, &Device::of(&profile)), Err(if other.contains(&b'R') { 5 } else { 10 }));
    }
    assert_eq!(near(&under(&BUILT_IN, &[profile])), Err(5));
}
