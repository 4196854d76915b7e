//! The proved archive beside the independent program: the same answer and the same bytes on every
//! input. Run with `--show-output` to see how many inputs each entry was compared on.

mod packing;
mod sampling;
mod shake;
mod shuffle;
