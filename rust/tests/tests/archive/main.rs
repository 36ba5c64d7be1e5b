//! Compares the crate with the proved static library.
//!
//! Each result of the crate, as a struct of C, is compared with the one that the library writes for
//! the same arguments: for all combinations of a finished test and of the settings of a reporter,
//! and for generated counters, lists of units, lists of sub-runs and streams.

mod combinations;
mod generator;
mod runs;
mod slices;
