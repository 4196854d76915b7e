//! Class tables: those that entries are lent, their files, and files offered to stores.

use crate::lent::shown;
use crate::store::store_image;
use crate::turn::{damaged, resized, size, Turn};
use peer::archive::c;
use peer::entries;
use peer::line::IMAGE;
use peer::rng::Rng;
use peer::store::{load_table as plain_load_table, SLOTS};
use peer::table::cases::{any_file, any_image, sound};
use peer::table::{Table, BUILT_IN_IMAGE, TABLE};

/// Any image of a table: half of them that of the built-in classes.
pub fn image(rng: &mut Rng) -> [u8; TABLE] {
    match rng.below(8) {
        0..=3 => BUILT_IN_IMAGE,
        4 | 5 => sound(rng).image(),
        _ => any_image(rng),
    }
}

/// A table, and the image that is lent for it: one of 16 is not its size.
pub fn lent(rng: &mut Rng) -> (Table, Vec<u8>) {
    let image = image(rng);
    (Table::from_image(&image), resized(rng, &image, 15))
}

/// Any file, one of 16 damaged and one of 16 of another length.
fn file(rng: &mut Rng) -> Vec<u8> {
    let file = any_file(rng);
    match rng.below(16) {
        0 => damaged(rng, &file),
        1 => resized(rng, &file, 0),
        _ => file,
    }
}

pub fn read_table(t: &mut Turn) -> u8 {
    let (file, room) = (file(&mut t.rng), size(&mut t.rng, TABLE, 15));
    t.pair(c::gridprofile_read_table, entries::read_table, &file, room)
}

/// A file offered to a store, which in one of two holds no profile.
pub fn load_table(t: &mut Turn) -> u8 {
    let package = t.pick(&t.world.packages);
    let mut image = store_image(&mut t.rng, package);
    if t.one_in(2) {
        image[..SLOTS].chunks_exact_mut(IMAGE).for_each(|slot| slot[0] = 0);
    }
    let (file, image) = (file(&mut t.rng), resized(&mut t.rng, &image, 15));
    compare_load_table(t, &image, &file)
}

fn compare_load_table(t: &mut Turn, image: &[u8], file: &[u8]) -> u8 {
    let (mut store, lent, mut expected) = (t.lend(image), t.lend(file), image.to_vec());
    let (to, len) = (store.pointer_mut(), store.len());
    // SAFETY: both buffers are alive for the call and do not overlap.
    let answer = unsafe { c::gridprofile_load_table(to, len, lent.pointer(), lent.len()) };
    let due = plain_load_table(&mut expected, file);
    assert_eq!(answer, due, "answer on {}, store {}", shown(file), shown(image));
    lent.demand_unchanged();
    store.demand(&expected);
    answer
}
