//! A store into which packages of any lines are loaded.

use crate::both::{Both, Sent, Signer};
use peer::archive::Category;
use peer::harness::Tally;
use peer::line::{write_line, Profile};
use peer::rng::Rng;
use peer::store::Device;
use peer::table::BUILT_IN;

/// A store, and a signer whose packages are loaded into it.
pub struct Held {
    category: Category,
    both: Both,
    signer: Signer,
    rng: Rng,
    loads: Tally,
    finds: Tally,
}

impl Held {
    pub fn new(category: &Category, what: &str, image: &[u8]) -> Held {
        let [loads, finds] = ["load", "lookup"].map(|entry| category.tally(&format!("{entry}, {what}")));
        let mut rng = Rng::new(0x6B69_6E64);
        let signer = Signer::new(category, &mut rng);
        Held { category: *category, both: Both::from(category, image), signer, rng, loads, finds }
    }

    /// Goes on from another image.
    pub fn hold(&mut self, image: &[u8]) {
        self.both = Both::from(&self.category, image);
    }

    /// Loads the package of a line, for any device.
    pub fn load(&mut self, line: &[u8], device: &Device) -> u8 {
        let package = self.signer.package(&mut self.rng, line);
        self.both.load_fast(&mut self.loads, Sent { key: &self.signer.key, package: &package }, device)
    }

    /// Loads a profile, for any device.
    pub fn put_on(&mut self, profile: &Profile, device: &Device) -> u8 {
        self.load(&write_line(&BUILT_IN, profile).expect("valid"), device)
    }

    /// Loads a profile on its own device.
    pub fn put(&mut self, profile: &Profile) -> u8 {
        self.put_on(profile, &Device::of(profile))
    }

    /// A lookup by a device.
    pub fn find(&mut self, device: &Device) -> u8 {
        self.both.find(&mut self.finds, device)
    }

    /// A lookup gives back the profile's very line.
    pub fn demand(&mut self, profile: &Profile) {
        let device = Device::of(profile);
        assert_eq!(self.find(&device), 0, "{device:?}");
        assert_eq!(self.both.line(&device), write_line(&BUILT_IN, profile).expect("valid"));
    }

    /// How many loads and lookups there were at least, and the answers that came.
    pub fn finish(self, loads: (usize, &[u8]), finds: (usize, &[u8])) {
        self.loads.finish(loads.0, loads.1);
        self.finds.finish(finds.0, finds.1);
    }
}
