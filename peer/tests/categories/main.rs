//! What belongs to one category, given to another: a buffer in any size of the other category is
//! refused with 1 wherever that is not the right size too, and everything lent stays as it was.

mod packages;
mod rounds;
mod samples;
mod scheme;
mod world;
