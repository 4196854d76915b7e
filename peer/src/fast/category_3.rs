//! The files under `sized`, compiled with the sizes of category 3 as constants.

use crate::sizes::{Sizes, CATEGORY_3};

const S: Sizes = CATEGORY_3;

#[path = "sized/mod.rs"]
pub mod sized;
