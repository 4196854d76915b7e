//! Packages, loading and lookups through C, beside the independent program, at each category: runs of
//! calls on one store image, step by step, both hertz of one country and class, the profile nearest to
//! measured volts, images of any bytes, and every pair of refusals. Categories 3 and 5 get fewer calls,
//! since each costs more there.

mod both;
mod held;
mod hertz;
mod images;
mod kinds;
mod nearest;
mod packages;
mod refusals;
mod runs;
