//! The devices of a few countries, and images of stores with profiles of theirs.

pub use peer::archive::both::{Both, Sent, Signer};

use peer::harness::Tally;
use peer::line::{image, Profile, IMAGE, NOMINAL_HERTZ};
use peer::store::{Device, STORE};

/// Few countries, so that triples come again; with four classes and both hertz they are more triples than fit.
pub const COUNTRIES: [&[u8; 2]; 4] = [b"XA", b"XB", b"XC", b"AX"];

/// How many devices there are of these countries.
pub const DEVICES: usize = COUNTRIES.len() * 4 * NOMINAL_HERTZ.len();

/// Every device of these countries.
pub fn devices() -> impl Iterator<Item = Device<'static>> {
    let of = |country: &'static [u8; 2], class| NOMINAL_HERTZ.map(|hertz| Device { country, class, hertz });
    COUNTRIES.into_iter().flat_map(move |country| (65..69).flat_map(move |class| of(country, class)))
}

/// An image with these profiles in these slots.
pub fn placed(slots: &[(usize, Profile)]) -> Vec<u8> {
    let mut bytes = vec![0; STORE];
    for (slot, profile) in slots {
        bytes[slot * IMAGE..(slot + 1) * IMAGE].copy_from_slice(&image(profile));
    }
    bytes
}

/// An image with these profiles in its first slots.
pub fn holding(profiles: &[Profile]) -> Vec<u8> {
    placed(&profiles.iter().copied().enumerate().collect::<Vec<_>>())
}

/// Looks every triple up.
pub fn find_all(both: &Both, t: &mut Tally) {
    for device in devices() {
        both.find(t, &device);
    }
}
