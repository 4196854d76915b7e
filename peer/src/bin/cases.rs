//! Prints inputs and answers at tiny sizes: `cases COUNT`, that many for each entry and each of the sizes.

use peer::scheme::cases::listing;
use peer::sizes::TINIES;

fn main() {
    let count = std::env::args().nth(1).and_then(|word| word.parse().ok()).unwrap_or(20);
    for sizes in TINIES {
        print!("{}", listing(&sizes, count));
    }
}
