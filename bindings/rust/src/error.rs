//! The trait of Rattle's `std::error`: Rust's or, without the feature `std`, a placeholder without
//! methods.

#[cfg(feature = "std")]
pub use std::error::Error;

/// Marks errors.
#[cfg(not(feature = "std"))]
pub trait Error {}
