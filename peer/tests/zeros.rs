//! Zero is 0 or 127 inside the library's sums, and 0 in everything that it hashes, compares or
//! writes. The inputs that the library keeps for this are found again here, and so is what would go
//! out if a 127 stayed.

use peer::archive::{self, Category, CATEGORIES};
use peer::bits::{lay, unpack, VALUE};
use peer::harness::Lent;
use peer::scheme::{self, secret_key};
use peer::sizes::{Sizes, CATEGORY_1};
use peer::vectors::powers;
use peer::zeros::{first_row, private_seed, syndrome, FoundPlace, Signing, OTHER_ZERO};

/// The first private seed whose key has a row that sums to 127, and the first such row.
const COUNTER: u64 = 0;
const ROW: usize = 20;
/// Round, from 1, and place of the first response and of the verifier's first difference of 127.
const RESPONSE: (usize, usize) = (1, 37);
const DIFFERENCE: (usize, usize) = (2, 5);

const KEPT: &str = concat!(env!("CARGO_MANIFEST_DIR"), "/../crates/two_zeros/src/kept.rt");

/// The numbers of a constant in the library's source, on one line or several.
fn kept(source: &str, name: &str) -> Vec<u8> {
    let (line, start) = (source.split_whitespace().collect::<Vec<_>>().join(" "), format!("pub const {name}: [u8; "));
    let (_, rest) = line.split_once(&start).unwrap_or_else(|| panic!("{name} is not kept"));
    let (count, rest) = rest.split_once("] = [").expect("a count");
    let (listed, _) = rest.split_once("];").expect("an end");
    let numbers = listed.split(',').map(str::trim).filter(|number| !number.is_empty());
    let numbers: Vec<u8> = numbers.map(|number| number.parse().expect("a byte")).collect();
    assert_eq!(count.parse(), Ok(numbers.len()), "the count of {name}");
    numbers
}

/// What is signed: private seed; master seed and salt of zeros; the empty message.
fn parts(s: &Sizes, counter: u64) -> [Vec<u8>; 4] {
    [private_seed(s, counter), vec![0; s.round_seed], vec![0; s.salt], Vec::new()]
}

fn signing(s: &Sizes, counter: u64) -> Signing {
    Signing::new(s, &parts(s, counter)).expect("no short draw")
}

#[test]
fn kept_inputs_are_the_first_found() {
    let row = first_row(&CATEGORY_1);
    let made = signing(&CATEGORY_1, row.counter);
    let [response, difference] = [made.first_response(), made.first_difference()].map(|found| found.expect("a zero"));
    let at = |found: &FoundPlace| (found.round, found.place);
    println!("counter {}, row {}", row.counter, row.row);
    println!("round and place: response {:?}, difference {:?}", at(&response), at(&difference));
    let found = [row.values, row.x, response.inputs.to_vec(), difference.inputs.to_vec()];
    let names = ["ROW", "X", "RESPONSE", "DIFFERENCE"];
    for (name, numbers) in names.iter().zip(&found) {
        println!("pub const {name}: [u8; {}] = {numbers:?};", numbers.len());
    }
    assert_eq!((row.counter, row.row), (COUNTER, ROW));
    assert_eq!((at(&response), at(&difference)), (RESPONSE, DIFFERENCE));
    let source = std::fs::read_to_string(KEPT).unwrap_or_else(|error| panic!("{KEPT}: {error}"));
    assert_eq!(names.map(|name| kept(&source, name)), found);
}

/// The library's key, which must be the second program's.
fn key_of(category: &Category, private: &[u8]) -> Vec<u8> {
    let [mut key, mut plain] = [(); 2].map(|()| vec![0; category.sizes.key()]);
    assert_eq!(category.make_key(private, &mut key), 0);
    assert_eq!(scheme::make_key(&category.sizes, private, &mut plain), 0);
    assert_eq!(key, plain);
    key
}

/// An entry that must refuse with 3, and leave the buffer as it was.
fn refused(entry: fn(&[u8], &mut [u8]) -> u8, input: &[u8], room: usize) {
    let (mut lent, before) = (Lent::new(room, 1), Lent::new(room, 1));
    assert_eq!(entry(input, lent.part()), 3);
    assert_eq!(lent.content(), before.content());
}

/// The key whose sum is 127: with 0 there it holds, and with 127 nothing takes it.
#[test]
fn the_step_matters() {
    let (category, s) = (&CATEGORIES[0], CATEGORIES[0].sizes);
    let private = private_seed(&s, COUNTER);
    let key = key_of(category, &private);
    let (public_seed, packed) = key.split_at(s.key_seed);
    assert_eq!(unpack(VALUE, packed, s.rows()).expect("fields of a key")[ROW], 0);

    let secret = secret_key(&s, &private).expect("no short draw");
    let loose = syndrome(s.k, &secret.matrix, &powers(&secret.exponents));
    assert_eq!(loose[ROW], OTHER_ZERO);
    refused(archive::pack_values, &loose, s.packed_syndrome());

    let wide: Vec<u32> = loose.iter().map(|&sum| u32::from(sum)).collect();
    let laid = lay(&wide, VALUE.width);
    assert_ne!(laid, packed);
    refused(archive::unpack_values, &laid, s.rows());

    let (signature, other_key) = (signing(&s, COUNTER).signature, [public_seed, &laid].concat());
    for (key, answer) in [(&key, 0), (&other_key, 3)] {
        assert_eq!(scheme::verify(&s, key, &[], &signature), answer);
        assert_eq!(category.verify(key, &[], &signature), answer);
    }
}

fn other_zeros(rounds: &[Vec<u8>]) -> usize {
    rounds.iter().flatten().filter(|&&sum| sum == OTHER_ZERO).count()
}

/// The signer's s̃ and y of all rounds, and the verifier's s̃ of those with second challenge 0.
#[test]
fn signing_reaches_it_often() {
    for (category, counter) in CATEGORIES.iter().zip([COUNTER, 0, 0]) {
        let (s, made) = (category.sizes, signing(&category.sizes, counter));
        let counts = [made.syndromes(), made.responses(), made.differences()].map(|sums| other_zeros(&sums));
        let [syndromes, responses, differences] = counts;
        println!(
            "{}: {syndromes} in s~, {responses} in responses, {differences} in the verifier's s~",
            category.named("places of 127")
        );
        assert!(counts.iter().all(|&count| count > 0));

        let ([private, master, salt, message], mut signature) = (parts(&s, counter), vec![0; s.signature()]);
        assert_eq!(category.sign(&private, &master, &salt, &message, &mut signature), 0);
        assert!(signature == made.signature, "signature of category {}", category.number);
        assert_eq!(category.verify(&key_of(category, &private), &message, &signature), 0);
    }
}
