//! The files under `sized`, compiled with the sizes of category 1 as constants.

use crate::sizes::{Sizes, CATEGORY_1};

const S: Sizes = CATEGORY_1;

#[path = "sized/mod.rs"]
pub mod sized;
