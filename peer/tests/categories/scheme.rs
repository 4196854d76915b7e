//! Seeds, keys and signatures.

use crate::world::{each_pair, lengths, name, resized, World, LINE};
use peer::harness::{Lent, Tally};
use peer::scheme;

/// Makes a key in both programs: 1 wherever a size is not the category's own.
fn make_key(t: &mut Tally, own: &World, private_seed: &[u8], room: usize) {
    let (category, s) = (own.category, own.category.sizes);
    let lent = Lent::holding(private_seed, t.inputs());
    let shown = || format!("{} bytes into {room}", private_seed.len());
    let plain = |out: &mut [u8]| scheme::make_key(&s, private_seed, out);
    let answer = t.both(room, |out| category.make_key(lent.content(), out), plain, shown);
    assert!(lent.content() == private_seed, "the seed, {}", shown());
    assert_eq!(answer, u8::from((private_seed.len(), room) != (s.key_seed, s.key())), "{}", shown());
}

#[test]
fn keys() {
    each_pair(|own, other| {
        let (mut t, s) = (Tally::new(name("make_key", own, other)), own.category.sizes);
        for len in lengths(&other.category.sizes) {
            make_key(&mut t, own, &resized(&own.seeds[0], len), s.key());
            make_key(&mut t, own, &own.seeds[0], len);
        }
        make_key(&mut t, own, &other.seeds[0], other.key.len());
        make_key(&mut t, own, &own.seeds[0], s.key());
        t.finish(40, &[0, 1]);
    });
}

/// Signs in both programs: 1 wherever a size is not the category's own.
fn sign(t: &mut Tally, own: &World, seeds: &[Vec<u8>; 3], room: usize) {
    let (category, s) = (own.category, own.category.sizes);
    let lent = seeds.each_ref().map(|seed| Lent::holding(seed, t.inputs()));
    let [private, master, salt] = seeds;
    let sizes = (seeds.each_ref().map(Vec::len), room);
    let shown = || format!("{sizes:?}");
    let proved = |out: &mut [u8]| {
        let [private, master, salt] = lent.each_ref().map(Lent::content);
        category.sign(private, master, salt, LINE, out)
    };
    let answer = t.both(room, proved, |out| scheme::sign(&s, private, master, salt, LINE, out), shown);
    assert!(lent.iter().zip(seeds).all(|(lent, seed)| lent.content() == seed), "the seeds, {sizes:?}");
    assert_eq!(answer, u8::from(sizes != ([s.key_seed, s.round_seed, s.salt], s.signature())), "{sizes:?}");
}

#[test]
fn signatures() {
    each_pair(|own, other| {
        let (mut t, whole) = (Tally::new(name("sign", own, other)), own.signature.len());
        for len in lengths(&other.category.sizes) {
            for at in 0..3 {
                let mut seeds = own.seeds.clone();
                seeds[at].resize(len, 0);
                sign(&mut t, own, &seeds, whole);
            }
            sign(&mut t, own, &own.seeds, len);
        }
        sign(&mut t, own, &other.seeds, whole);
        sign(&mut t, own, &other.seeds, other.signature.len());
        sign(&mut t, own, &own.seeds, whole);
        t.finish(79, &[0, 1]);
    });
}

/// Checks in both programs: 1 wherever a size is not the category's own.
fn verify(t: &mut Tally, own: &World, key: &[u8], signature: &[u8]) {
    let (category, s) = (own.category, own.category.sizes);
    let lent = [key, LINE, signature].map(|bytes| Lent::holding(bytes, t.inputs()));
    let [in_key, message, in_signature] = lent.each_ref().map(Lent::content);
    let answer = category.verify(in_key, message, in_signature);
    let sizes = (key.len(), signature.len());
    t.count(answer, scheme::verify(&s, key, LINE, signature), || format!("{sizes:?}"));
    let kept = [key, LINE, signature].iter().zip(&lent).all(|(old, lent)| lent.content() == *old);
    assert!(kept, "what was checked, {sizes:?}");
    assert_eq!(answer, u8::from(sizes != (s.key(), s.signature())), "{sizes:?}");
}

/// Honest keys and signatures of both, in every way to put them together; and in every size.
#[test]
fn checks() {
    each_pair(|own, other| {
        let mut t = Tally::new(name("verify", own, other));
        for key in [&own.key, &other.key] {
            for signature in [&own.signature, &other.signature] {
                verify(&mut t, own, key, signature);
            }
        }
        for len in lengths(&other.category.sizes) {
            verify(&mut t, own, &resized(&own.key, len), &own.signature);
            verify(&mut t, own, &own.key, &resized(&own.signature, len));
        }
        t.finish(40, &[0, 1]);
    });
}
