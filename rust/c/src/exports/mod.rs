// Made by tools/erase from crates/deodarsieve/src/lib.rt. Do not edit.
//! The C interface to the extraction from output, the counters, results, levels, outcomes and repeated
//! runs, for any language that can call C.
//!
//! The header `deodarsieve.h` declares every function, with its result and its preconditions. An
//! enumeration is passed as a number, its code. Each function checks the codes and numbers in its
//! arguments, calls the library that does the work, and writes the result through a pointer. Its
//! return value is one of the constants in `c_values::status`. If this is not `OK`, it writes nothing.
//! The functions of [`version`] call no library and return no status. The structs and the conversions
//! are in `c_values`.

pub mod counters;
pub mod levels;
pub mod outcomes;
pub mod slices;
pub mod stress;
pub mod version;
