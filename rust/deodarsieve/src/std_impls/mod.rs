//! Traits of `core` and `std` for the types of the layer, and conversions between them.

mod attempts;
mod captured;
#[cfg(feature = "chrono")]
mod chrono;
mod conversions;
mod error_lists;
mod errors;
#[cfg(feature = "std")]
mod exit_status;
#[cfg(feature = "std")]
mod io_errors;
mod records;
#[cfg(feature = "serde")]
pub(crate) mod serde;
mod serializable_error;
mod signal_names;
#[cfg(feature = "std")]
mod system_time;
mod unit_error_lists;

#[cfg(feature = "std")]
pub(crate) use captured::KeptText;
