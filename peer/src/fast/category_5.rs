//! The files under `sized`, compiled with the sizes of category 5 as constants.

use crate::sizes::{Sizes, CATEGORY_5};

const S: Sizes = CATEGORY_5;

#[path = "sized/mod.rs"]
pub mod sized;
