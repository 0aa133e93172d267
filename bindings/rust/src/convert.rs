//! The trait of Rattle's `std::convert`.

/// Conversion to text.
pub trait AsStr {
    /// Borrows the text.
    fn as_str(&self) -> &str;
}

impl<T: AsRef<str>> AsStr for T {
    fn as_str(&self) -> &str {
        self.as_ref()
    }
}
