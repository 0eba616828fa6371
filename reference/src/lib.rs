//! The model, its cases and its listings, for the command line and for the benchmark.

mod aim;
pub mod cases;
pub mod choice;
pub mod chronicle;
pub mod compare;
pub mod evening;
pub mod form;
pub mod listing;
pub mod losses;
pub mod model;
pub mod ops;
pub mod outlets;
pub mod own_checks;
pub mod pairs;
pub mod partners;
pub mod points;
pub mod shrink;
#[cfg(test)]
mod testing;
pub mod trips;
pub mod unsure;
pub mod widened;
pub mod word;
pub mod workshop;
