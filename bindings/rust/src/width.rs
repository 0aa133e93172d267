//! The widths of texts: measured by the crate `unicode-width` or, without the feature `unicode`, in
//! bytes.

#[cfg(feature = "unicode")]
pub use unicode_width::UnicodeWidthStr;

/// Texts with a width.
#[cfg(not(feature = "unicode"))]
pub trait UnicodeWidthStr {
    /// How many columns a text takes: one for each byte.
    fn width(&self) -> usize;
}

#[cfg(not(feature = "unicode"))]
impl UnicodeWidthStr for str {
    fn width(&self) -> usize {
        self.len()
    }
}
