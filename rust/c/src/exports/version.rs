// Made by tools/erase from crates/deodarsieve/src/version.rt. Do not edit.
//! The version of the library, and the version of its layouts.

/// The version 0.1.0 as one number: 1,000,000 times the major version, 1,000 times the minor
/// version, and the patch version.
pub const VERSION: u32 = 1_000;

/// Returns the version of the library.
#[unsafe(no_mangle)]
pub extern "C" fn deodarsieve_version() -> u32 {
    VERSION
}

/// Does nothing. Its name has the version of the structs and of the functions. The header makes a
/// program refer to this name, so a program with the header of another version does not link.
#[unsafe(no_mangle)]
pub extern "C" fn deodarsieve_layouts_1() {}
