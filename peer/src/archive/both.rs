//! One store, held as an image by the archive and by the independent program.

use super::Category;
use crate::archive;
use crate::harness::{Lent, Tally};
use crate::line::{read_line, write_line, Profile, LONGEST};
use crate::rng::Rng;
use crate::scheme;
use crate::store::{self, table_of, wrote_one_slot, Device, Measured, Store, Verify, SLOTS, STORE};
use crate::table::BUILT_IN;
use std::fmt::Debug;

/// An entry that reads a store and writes a line: image, line, length.
type Reader<'a> = &'a dyn Fn(&[u8], &mut [u8], usize) -> (u8, usize);

/// A key and a package.
#[derive(Clone, Copy)]
pub struct Sent<'a> {
    pub key: &'a [u8],
    pub package: &'a [u8],
}

impl Sent<'_> {
    fn shown(&self) -> String {
        let Sent { key, package } = self;
        let end = String::from_utf8_lossy(&package[package.len().saturating_sub(LONGEST)..]);
        format!("{} bytes of a key, {} of a package that ends in {end:?}", key.len(), package.len())
    }
}

/// The images of both, which mean the same store, of a device of one category. The slots' order is the
/// program's choice.
pub struct Both {
    category: Category,
    proved: Vec<u8>,
    plain: Vec<u8>,
}

impl Both {
    /// Both start from the same image.
    pub fn from(category: &Category, image: &[u8]) -> Both {
        Both { category: *category, proved: image.to_vec(), plain: image.to_vec() }
    }

    pub fn empty(category: &Category) -> Both {
        Both::from(category, &[0; STORE])
    }

    /// The image that the archive holds.
    pub fn image(&self) -> &[u8] {
        &self.proved
    }

    pub fn stored(&self) -> Vec<Profile> {
        Store::from_image(&self.plain).sorted()
    }

    /// Loads in both, where `verify` judges for the independent program. Both stores mean the same
    /// after it; a refusal leaves every byte as it was.
    pub fn load(&mut self, t: &mut Tally, sent: Sent, device: &Device, verify: Verify) -> u8 {
        let s = self.category.sizes;
        let shown = || format!("{device:?}, {}", sent.shown());
        let mut lent = Lent::holding(&self.proved, t.inputs());
        let (key, package) = (sent.key.to_vec(), sent.package.to_vec());
        let answer = self.category.load(lent.part(), &key, &package, device);
        assert!(key == sent.key && package == sent.package, "inputs of load, {}", shown());
        let expected = store::load(&s, &mut self.plain, sent.key, sent.package, device, verify);
        if answer != 0 {
            assert!(lent.content() == self.proved, "after a refused load, {}", shown());
        } else {
            let line = &sent.package[s.signature()..];
            let profile = read_line(&table_of(&self.proved), line).expect("a line that was loaded");
            assert!(wrote_one_slot(&self.proved, lent.content(), &profile), "slots after a load, {}", shown());
        }
        self.proved = lent.content().to_vec();
        t.count(answer, expected, shown);
        assert_eq!(Store::from_image(&self.proved).sorted(), self.stored(), "after load, {}", shown());
        answer
    }

    /// Loads, where the clear checker judges.
    pub fn load_clear(&mut self, t: &mut Tally, sent: Sent, device: &Device) -> u8 {
        let s = self.category.sizes;
        self.load(t, sent, device, &|key, message, signature| scheme::verify(&s, key, message, signature))
    }

    /// Loads, where the fast checker judges.
    pub fn load_fast(&mut self, t: &mut Tally, sent: Sent, device: &Device) -> u8 {
        let verify = self.category.plain.verify;
        self.load(t, sent, device, &verify)
    }

    /// Offers a table's file to both. The slots stay as they were, and after a refusal the table does too; else both
    /// have the same one.
    pub fn load_table(&mut self, t: &mut Tally, file: &[u8]) -> u8 {
        let shown = || format!("\"{}\" for {} bytes", file.escape_ascii(), self.proved.len());
        let (mut lent, own) = (Lent::holding(&self.proved, t.inputs()), Lent::holding(file, t.inputs()));
        let answer = archive::load_table(lent.part(), own.content());
        assert!(own.content() == file, "file of load_table, {}", shown());
        let mut due = self.plain.clone();
        t.count(answer, store::load_table(&mut due, file), shown);
        let new = lent.content().to_vec();
        if answer == 0 {
            assert!(new[..SLOTS] == self.proved[..SLOTS] && new[SLOTS..] == due[SLOTS..], "after {}", shown());
        } else {
            assert!(new == self.proved && due == self.plain, "after a refused table, {}", shown());
        }
        (self.proved, self.plain) = (new, due);
        answer
    }

    /// Reads in both, with `room` bytes lent for the line. The image stays as it was.
    fn read(&self, t: &mut Tally, proved: Reader, plain: Reader, asked: &dyn Debug, room: usize) -> u8 {
        let old = t.inputs().wrapping_mul(0x9E37_79B9);
        let (image, shown) = (self.proved.clone(), || format!("{asked:?} into {room}"));
        let answer = t.both(room, |out| proved(&image, out, old), |out| plain(&self.plain, out, old), shown);
        assert!(image == self.proved, "image after {}", shown());
        answer
    }

    /// Looks up in both, with `room` bytes lent for the line.
    pub fn lookup(&self, t: &mut Tally, device: &Device, room: usize) -> u8 {
        let proved: Reader = &|image, out, old| archive::lookup(image, device, out, old);
        self.read(t, proved, &|image, out, old| store::lookup(image, device, out, old), device, room)
    }

    /// Asks both for the nearest profile, with `room` bytes lent for the line.
    pub fn nearest(&self, t: &mut Tally, measured: &Measured, room: usize) -> u8 {
        let proved: Reader = &|image, out, old| archive::nearest(image, measured, out, old);
        self.read(t, proved, &|image, out, old| store::nearest(image, measured, out, old), measured, room)
    }

    /// A lookup as a device makes it.
    pub fn find(&self, t: &mut Tally, device: &Device) -> u8 {
        self.lookup(t, device, LONGEST)
    }

    /// The line that the archive finds for a device.
    pub fn line(&self, device: &Device) -> Vec<u8> {
        let mut out = vec![0; LONGEST];
        let (answer, length) = archive::lookup(&self.proved, device, &mut out, 0);
        assert_eq!(answer, 0, "{device:?}");
        out.truncate(length);
        out
    }

    /// The line that both find nearest, or the refusal.
    pub fn near(&self, t: &mut Tally, measured: &Measured) -> Result<Vec<u8>, u8> {
        match self.nearest(t, measured, LONGEST) {
            0 => (),
            refusal => return Err(refusal),
        }
        let mut out = vec![0; LONGEST];
        let (_, length) = archive::nearest(&self.proved, measured, &mut out, 0);
        out.truncate(length);
        Ok(out)
    }
}

/// A signer, with the fast program: a test needs many packages.
pub struct Signer {
    category: Category,
    pub private_seed: Vec<u8>,
    pub key: Vec<u8>,
}

impl Signer {
    pub fn new(category: &Category, rng: &mut Rng) -> Signer {
        let (private_seed, mut key) = (rng.bytes(category.sizes.key_seed), vec![0; category.sizes.key()]);
        assert_eq!((category.plain.make_key)(&private_seed, &mut key), 0);
        Signer { category: *category, private_seed, key }
    }

    /// The package of any line, also of one that breaks a rule.
    pub fn package(&self, rng: &mut Rng, line: &[u8]) -> Vec<u8> {
        let (sign, s) = (self.category.plain.sign, self.category.sizes);
        let mut package = vec![0; s.signature()];
        let (master, salt) = (rng.bytes(s.round_seed), rng.bytes(s.salt));
        assert_eq!(sign(&self.private_seed, &master, &salt, line, &mut package), 0);
        package.extend_from_slice(line);
        package
    }

    /// The package of a profile that is valid under the built-in classes.
    pub fn package_of(&self, rng: &mut Rng, profile: &Profile) -> Vec<u8> {
        self.package(rng, &write_line(&BUILT_IN, profile).expect("valid"))
    }
}
