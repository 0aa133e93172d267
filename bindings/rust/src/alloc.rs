//! The types of Rattle's `std::alloc`.

/// The allocator to pass to methods: Rust's global allocator.
#[derive(Clone, Copy, Debug)]
pub struct Global;

/// An allocation failed.
#[derive(Clone, Copy, Debug, PartialEq, Eq)]
pub struct AllocError;

impl core::fmt::Display for AllocError {
    fn fmt(&self, f: &mut core::fmt::Formatter<'_>) -> core::fmt::Result {
        f.write_str("Out of memory")
    }
}

impl crate::error::Error for AllocError {}

/// An allocation failed; the value that couldn't be stored is returned.
#[derive(Clone, Copy, Debug, PartialEq, Eq)]
#[doc(hidden)]
pub struct AllocFailed<T>(pub T);

impl<T> From<AllocFailed<T>> for AllocError {
    fn from(_: AllocFailed<T>) -> AllocError {
        AllocError
    }
}
