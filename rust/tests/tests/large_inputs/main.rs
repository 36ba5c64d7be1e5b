//! Large inputs: no function fails because of the size of its input, and the time of a search grows
//! no faster than its input.
//!
//! This is a test program of its own, because it measures time.

mod reports;
mod runs;
mod time;
