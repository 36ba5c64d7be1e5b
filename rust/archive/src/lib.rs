//! Calls of the proved static library, for comparison with the crate `deodarsieve`.
//!
//! [`sys`] declares the exports of `rust/c/include/deodarsieve.h`, and has its structs. [`codes`] and
//! [`values`] convert the types of the crate to codes and structs. Nothing is converted back: two
//! results are compared as the structs of C.

mod c_values;
pub mod codes;
pub mod sys;
pub mod values;
