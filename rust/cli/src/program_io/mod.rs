// Made by tools/erase from crates/program_io/src/lib.rt. Do not edit.
//! Input and output of programs: the traits `Source` and `Sink`, implementations of them for byte
//! slices and for readers and writers of `std`, and calls that read all of a source and write all of a
//! text.

pub mod device;
pub mod fault;
pub mod memory_device;
pub mod std_device;
pub mod transfer;
