//! Images that no run of the library made: every image means some store.

use crate::both::{devices, find_all, Both, Sent, Signer, COUNTRIES, DEVICES};
use peer::archive::{Category, CATEGORIES, CATEGORY_1};
use peer::harness::Tally;
use peer::line::cases::{any_image, valid, NO_HERTZ};
use peer::line::{Profile, HERTZ, IMAGE};
use peer::rng::Rng;
use peer::store::{Device, Store, SLOTS, STORE};

/// Any bytes: in one of eight nothing but noise, else slots that are used by any byte but 0, free
/// ones that are not blank, profiles that break rules, hertz that no grid has, and triples that stand
/// in several slots. The table is that of the built-in classes.
pub fn any_store(rng: &mut Rng) -> Vec<u8> {
    let (mut bytes, free) = (rng.bytes(SLOTS), rng.below(8));
    for slot in bytes.chunks_exact_mut(IMAGE).filter(|_| free > 0) {
        slot.copy_from_slice(&any_image(rng));
        slot[0] = if rng.below(12) < free { 0 } else { [1, 2, 85, 128, 254, 255][rng.below(6)] };
        if rng.below(4) > 0 {
            slot[1..3].copy_from_slice(COUNTRIES[rng.below(COUNTRIES.len())]);
        }
        if rng.below(2) == 0 {
            slot[4..8].copy_from_slice(&(rng.below(4) as u32).to_le_bytes());
        }
        if rng.below(6) == 0 {
            slot[HERTZ..HERTZ + 4].copy_from_slice(&NO_HERTZ[rng.below(NO_HERTZ.len())].to_le_bytes());
        }
    }
    bytes.resize(STORE, 0);
    bytes
}

/// How many devices an image has twice, at both hertz, and only at hertz that no grid has.
fn strange(image: &[u8]) -> [usize; 3] {
    let (stored, mut seen) = (Store::from_image(image).sorted(), [0; 3]);
    for device in devices() {
        let beside = stored.iter().filter(|p| p.country == device.country && u32::from(p.class) == device.class);
        let hertz: Vec<u32> = beside.map(|p| p.hertz).collect();
        let times = |wanted: u32| hertz.iter().filter(|&&hertz| hertz == wanted).count();
        let has_odd_alone = !hertz.is_empty() && times(50) + times(60) == 0;
        let kinds = [times(device.hertz) > 1, times(50).min(times(60)) > 0, has_odd_alone];
        seen.iter_mut().zip(kinds).for_each(|(sum, kind)| *sum += usize::from(kind));
    }
    seen
}

/// Every triple is looked up in 4,000 images. A stored profile that breaks a rule is not written. Lookups
/// know no category.
#[test]
fn lookups() {
    let (mut t, mut rng, mut seen) = (Tally::new("lookup, any image"), Rng::new(0x696D_6167), [0; 3]);
    for _ in 0..4_000 {
        let image = any_store(&mut rng);
        find_all(&Both::from(&CATEGORY_1, &image), &mut t);
        seen.iter_mut().zip(strange(&image)).for_each(|(sum, count)| *sum += count);
    }
    println!("devices that an image has twice, at both hertz, and at other hertz alone: {seen:?}");
    assert!(seen.iter().all(|&count| count > 1_000), "{seen:?}");
    t.finish(4_000 * DEVICES, &[0, 5, 9]);
}

/// Four packages are loaded into each of so many images; after each every triple is looked up.
fn loads_at(category: &Category, images: usize) {
    let (mut loads, mut finds) = (category.tally("load, any image"), category.tally("lookup, any image after a load"));
    let mut rng = Rng::new(0x6C6F_6164);
    let signer = Signer::new(category, &mut rng);
    let post = |rng: &mut Rng, turn: usize| {
        let serial = [1, 2, 3, 4, u32::MAX][rng.below(5)];
        let profile = Profile { country: *COUNTRIES[turn % COUNTRIES.len()], serial, ..valid(rng) };
        (profile, signer.package_of(rng, &profile))
    };
    let posts: Vec<_> = (0..120).map(|turn| post(&mut rng, turn)).collect();
    for _ in 0..images {
        let mut both = Both::from(category, &any_store(&mut rng));
        for _ in 0..4 {
            let (profile, package) = &posts[rng.below(posts.len())];
            both.load(&mut loads, Sent { key: &signer.key, package }, &Device::of(profile), &|_, _, _| 0);
            find_all(&both, &mut finds);
        }
    }
    loads.finish(4 * images, &[0, 7, 8]);
    finds.finish(4 * DEVICES * images, &[0, 5, 9]);
}

#[test]
fn loads() {
    for (category, images) in CATEGORIES.iter().zip([1_000, 150, 100]) {
        loads_at(category, images);
    }
}
