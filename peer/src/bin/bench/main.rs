//! The proved library beside the fast plain program of this crate and beside OpenSSL: same run, same
//! inputs, the programs in turns, each time the least of many.
//!
//! The first two columns are the library's time over the others': below 1 it is the quicker one. The
//! column SHAKE says what part of a job's time the library's SHAKE takes for strings of the lengths
//! that the job hashes, measured in the same turns. Stack use comes from the program that the first
//! argument names (`c/stack.c`); without it that column stays empty. For `lookup`, `nearest`, `read_line`,
//! `write_line` and `evaluate_line` the plain program is the clear one of this crate: it has no fast one.

mod growth;
mod measure;
mod scheme;
mod small;
mod stacks;
mod store;
mod table;
mod work;

use peer::archive::CATEGORIES;
use peer::rng::Rng;
use stacks::Stacks;

fn main() {
    let stacks = std::env::args().nth(1).map_or_else(Stacks::default, |program| Stacks::measured(&program));
    let mut rng = Rng::new(0x6265_6E63);
    table::print_heads();
    measure::warm_up();
    for category in &CATEGORIES {
        scheme::rows(category, &mut rng, &stacks);
        store::rows(category, &mut rng, &stacks);
        small::sampling(category, &mut rng, &stacks);
    }
    store::lookup(&stacks);
    store::nearest(&stacks);
    small::hashing(&mut rng, &stacks);
    small::packing(&mut rng, &stacks);
    small::lines(&stacks);
    small::formulas(&stacks);
    let rounds = CATEGORIES.map(|category| category.name_in_c("verify_round"));
    stacks.print(&[&rounds[..], &["preview".to_string()]].concat());
    growth::by_category(&mut rng);
    growth::by_message(&mut rng);
}
