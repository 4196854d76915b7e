//! Every entry of the archive: the inputs of the long run, and the answers that come.

use crate::run::Job;
use crate::turn::Turn;
use crate::{lines, scheme, small, store, tables};
use peer::archive::CATEGORIES;

struct Entry {
    name: &'static str,
    /// At each category; only one number where none decides.
    inputs: &'static [usize],
    answers: &'static [u8],
    one: fn(&mut Turn) -> u8,
}

/// Keys and signatures of the greater categories are dearer, and so they have fewer inputs: enough for every
/// answer to come in the short run.
#[rustfmt::skip]
static ENTRIES: [Entry; 25] = [
    Entry { name: "shake128", inputs: &[1_000_000], answers: &[0], one: small::shake128 },
    Entry { name: "shake256", inputs: &[1_000_000], answers: &[0], one: small::shake256 },
    Entry { name: "pack_values", inputs: &[1_000_000], answers: &[0, 1, 3], one: small::pack_values },
    Entry { name: "unpack_values", inputs: &[1_000_000], answers: &[0, 1, 3], one: small::unpack_values },
    Entry { name: "pack_exponents", inputs: &[1_000_000], answers: &[0, 1, 3], one: small::pack_exponents },
    Entry { name: "unpack_exponents", inputs: &[1_000_000], answers: &[0, 1, 3], one: small::unpack_exponents },
    Entry {
        name: "sample_matrix", inputs: &[200_000, 80_000, 80_000], answers: &[0, 1, 2], one: small::sample_matrix,
    },
    Entry {
        name: "sample_exponents", inputs: &[1_000_000, 400_000, 400_000], answers: &[0, 1, 2],
        one: small::sample_exponents,
    },
    Entry {
        name: "sample_mask_values", inputs: &[1_000_000, 400_000, 400_000], answers: &[0, 1, 2],
        one: small::sample_mask_values,
    },
    Entry {
        name: "sample_first_challenges", inputs: &[1_000_000, 400_000, 400_000], answers: &[0, 1, 2],
        one: small::sample_first_challenges,
    },
    Entry {
        name: "sample_second_challenge", inputs: &[1_000_000, 400_000, 400_000], answers: &[0, 1, 2],
        one: small::sample_second_challenge,
    },
    Entry { name: "make_key", inputs: &[800_000, 200_000, 100_000], answers: &[0, 1], one: scheme::make_key },
    Entry { name: "sign", inputs: &[400_000, 80_000, 80_000], answers: &[0, 1], one: scheme::sign },
    Entry { name: "verify", inputs: &[800_000, 160_000, 120_000], answers: &[0, 1, 3, 4], one: scheme::verify },
    Entry {
        name: "verify_round", inputs: &[400_000, 80_000, 80_000], answers: &[0, 1, 3, 4], one: scheme::verify_round,
    },
    Entry { name: "read_table", inputs: &[1_000_000], answers: &[0, 1, 13], one: tables::read_table },
    Entry { name: "read_line", inputs: &[2_000_000], answers: &[0, 1, 5], one: lines::read_line },
    Entry { name: "write_line", inputs: &[2_000_000], answers: &[0, 1, 5], one: lines::write_line },
    Entry { name: "evaluate_line", inputs: &[2_000_000], answers: &[0, 1, 5, 11, 12], one: lines::evaluate_line },
    Entry { name: "preview", inputs: &[200_000], answers: &[0, 1], one: lines::preview },
    Entry {
        name: "make_package", inputs: &[200_000, 80_000, 80_000], answers: &[0, 1, 5], one: store::make_package,
    },
    Entry {
        name: "load", inputs: &[400_000, 120_000, 100_000], answers: &[0, 1, 3, 4, 5, 6, 7, 8, 10], one: store::load,
    },
    Entry { name: "load_table", inputs: &[1_000_000], answers: &[0, 1, 13, 14], one: tables::load_table },
    Entry { name: "lookup", inputs: &[1_000_000], answers: &[0, 1, 5, 9, 10], one: store::lookup },
    Entry { name: "nearest", inputs: &[1_000_000], answers: &[0, 1, 5, 9, 10], one: store::nearest },
];

/// A job for each entry and category.
pub fn all() -> Vec<Job> {
    let of_entry = |entry: &'static Entry| {
        let &Entry { name: entry, inputs, answers, one } = entry;
        let of_category = move |(category, &inputs): (usize, &usize)| {
            let name = CATEGORIES[category].name_in_c(entry);
            Job { name, category, inputs, answers, one }
        };
        inputs.iter().enumerate().map(of_category)
    };
    ENTRIES.iter().flat_map(of_entry).collect()
}
