//! Compares the exports with the header and with the layer: structs, functions, versions and codes.
//! An export writes for a code the result of the layer for the variant that has this code by its
//! name in the header. The first code past the end of each table is refused. No export allocates.

mod allocations;
mod counters;
mod displays;
mod header;
mod header_text;
mod outcomes;
mod slices;
mod stress;
mod tables;
