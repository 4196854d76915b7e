//! How time grows: from category to category, and with the message.

use crate::measure::{least, Program};
use crate::scheme::{signings, Job, Signed, INPUTS, JOBS, VERIFY};
use crate::table::microseconds;
use crate::work::permutations;
use peer::archive::{CATEGORIES, CATEGORY_1};
use peer::rng::Rng;
use std::hint::black_box;

/// A line for each job and category: the library's time and the work, each to that of category 1.
pub fn by_category(rng: &mut Rng) {
    let cases = CATEGORIES.each_ref().map(|category| signings(category, rng));
    println!("\nby the category: the library's time, the permutations of Keccak that the job's strings need, and the");
    println!("products in its syndromes, each to those of category 1");
    println!(
        "    time  permutations  products  {:28} {:>13} {:>13} {:>10}",
        "job", "library", "permutations", "products"
    );
    JOBS.iter().for_each(|job| by_category_of(job, &cases));
}

/// All categories in turns.
fn by_category_of(job: &Job, cases: &[[Signed; INPUTS]]) {
    let call = |at: &Signed, out: &mut [u8]| assert_eq!((job.library)(at, black_box(out)), 0);
    let mut calls: Vec<_> = cases
        .iter()
        .map(|inputs| {
            let mut out = inputs[0].signature.clone();
            move |at: usize| call(&inputs[at], &mut out)
        })
        .collect();
    let mut programs: Vec<Program> = calls.iter_mut().map(|call| call as Program).collect();
    let times = least(INPUTS, 1, &mut programs);
    let work = cases.iter().map(|[at, ..]| [permutations(at.sizes(), &job.strings(at)), job.products(at.sizes())]);
    let work: Vec<[usize; 2]> = work.collect();
    for (([at, ..], &time), &[hashed, multiplied]) in cases.iter().zip(&times).zip(&work) {
        let ratios = [time / times[0], hashed as f64 / work[0][0] as f64, multiplied as f64 / work[0][1] as f64];
        let [a, b, c] = ratios;
        let entry = at.category.name_in_c(job.entry);
        println!("{a:8.2}  {b:12.2}  {c:8.2}  {entry:28} {:>13} {hashed:>13} {multiplied:>10}", microseconds(time));
    }
}

/// Bytes of a message, from none to the most.
const MESSAGES: [usize; 6] = [0, 64, 1_024, 4_096, 16_384, 65_536];

/// Marks of the plot for the time of an empty message.
const MARKS: f64 = 20.0;

/// A line for each length of message, all lengths and both programs in turns.
pub fn by_message(rng: &mut Rng) {
    let cases = MESSAGES.map(|len| {
        let message = rng.bytes(len);
        Signed::draw(&CATEGORY_1, rng, &message)
    });
    let calls = |program: fn(&Signed, &mut [u8]) -> u8| {
        cases.each_ref().map(|at| move |_: usize| assert_eq!(program(at, &mut []), 0))
    };
    let (mut library, mut plain) = (calls(VERIFY.library), calls(VERIFY.plain));
    let mut programs: Vec<Program> = Vec::new();
    programs.extend(library.iter_mut().map(|call| call as Program));
    programs.extend(plain.iter_mut().map(|call| call as Program));
    let times = least(1, 1, &mut programs);
    let (library, plain) = times.split_at(cases.len());
    println!("\nverify, by the message's bytes: time to that of an empty message, and to the plain program's");
    println!("to empty  to plain  {:>8} {:>13}", "bytes", "library");
    for ((len, &time), plain) in MESSAGES.iter().zip(library).zip(plain) {
        let growth = time / library[0];
        let plot = "#".repeat((MARKS * growth).round() as usize);
        println!("{growth:8.2}  {:8.2}  {len:8} {:>13}  {plot}", time / plain, microseconds(time));
    }
}
