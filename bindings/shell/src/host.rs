//! What the program needs from the system and from Rattle's library, implemented with Rust's.

pub use ::getopts::alloc;
pub use ::getopts::fallible::*;

use self::alloc::{AllocError, Global};
use self::env::{Env, FillError};
use ::getopts::bytes_of;
use std::fmt;

/// Rattle's `std::env`.
pub mod env {
    /// Why an argument wasn't written to a buffer.
    pub enum FillError {
        NotPresent,
        TooLong,
    }

    /// The program's arguments.
    pub trait Env {
        /// Writes the argument at `index` to the front of a buffer, and returns its length.
        fn arg(&self, index: usize, buffer: &mut [u8]) -> Result<usize, FillError>;
    }
}

/// Rattle's `std::io`.
pub mod io {
    pub use std::io::*;

    /// Standard output.
    pub fn writer(_: &super::HostRuntime) -> std::io::Stdout {
        std::io::stdout()
    }
}

/// The system, with the program's arguments as bytes.
pub struct HostRuntime {
    words: Vec<Vec<u8>>,
}

impl HostRuntime {
    pub fn new() -> HostRuntime {
        let words = std::env::args_os().map(|word| {
            let bytes = bytes_of(&word).expect("arguments should be Unicode");
            bytes.into_owned()
        });
        HostRuntime {
            words: words.collect(),
        }
    }

    pub fn alloc(&self) -> Global {
        Global
    }

    pub fn stderr(&self) -> std::io::Stderr {
        std::io::stderr()
    }
}

impl Env for HostRuntime {
    fn arg(&self, index: usize, buffer: &mut [u8]) -> Result<usize, FillError> {
        let word = self.words.get(index).ok_or(FillError::NotPresent)?;
        let buffer = buffer.get_mut(..word.len()).ok_or(FillError::TooLong)?;
        buffer.copy_from_slice(word);
        Ok(word.len())
    }
}

/// Trims ASCII white space. Rust has its own `trim_ascii` since 1.80.
pub trait TrimAscii {
    /// The text without ASCII white space at both ends.
    fn trimmed_ascii(&self) -> &str;
}

impl TrimAscii for str {
    fn trimmed_ascii(&self) -> &str {
        self.trim_matches(|character: char| character.is_ascii_whitespace())
    }
}

/// Vectors of bytes and other `Copy` types.
pub trait TryExtend<T: Copy> {
    /// Truncates the vector to `len` items, or fills it up with `item`.
    fn try_resize(&mut self, len: usize, item: T) -> Result<(), AllocError>;
}

impl<T: Copy> TryExtend<T> for Vec<T> {
    fn try_resize(&mut self, len: usize, item: T) -> Result<(), AllocError> {
        self.try_grow(len.saturating_sub(self.len()))?;
        self.resize(len, item);
        Ok(())
    }
}

/// Strings to which formatted text is added, and which know their allocator.
pub trait Written {
    /// Appends formatted text.
    fn try_add(&mut self, arguments: fmt::Arguments<'_>) -> Result<(), AllocError>;
    /// The string's allocator.
    fn allocator(&self) -> &Global;
}

/// A string to which writing fails if an allocation fails.
struct Growing<'t>(&'t mut String);

impl fmt::Write for Growing<'_> {
    fn write_str(&mut self, text: &str) -> fmt::Result {
        self.0.try_push_str(text).map_err(|_| fmt::Error)
    }
}

impl Written for String {
    fn try_add(&mut self, arguments: fmt::Arguments<'_>) -> Result<(), AllocError> {
        fmt::write(&mut Growing(self), arguments).map_err(|_| AllocError)
    }

    fn allocator(&self) -> &Global {
        &Global
    }
}

/// Formats a string: `text!(in alloc; "{name}: {fault}")`.
macro_rules! text {
    (in $alloc:expr; $($form:tt)*) => {{
        let mut text = String::empty($alloc);
        text.try_add(format_args!($($form)*)).map(|()| text)
    }};
}

/// Appends formatted text and a newline.
macro_rules! add_line {
    ($text:expr, $($form:tt)*) => {
        $text.try_add(format_args!($($form)*)).and_then(|()| $text.try_push('\n'))
    };
}

pub(crate) use {add_line, text};

#[cfg(test)]
mod tests {
    #[cfg(windows)]
    #[test]
    fn lone_surrogates_become_three_bytes() {
        let units = [0xD83D, 0xDE00, 0xD83D, 0x61, 0xDFFF];
        let word: std::ffi::OsString = std::os::windows::ffi::OsStringExt::from_wide(&units);
        let bytes = super::bytes_of(&word).unwrap();
        assert_eq!(*bytes, *b"\xF0\x9F\x98\x80\xED\xA0\xBDa\xED\xBF\xBF");
    }

    #[test]
    fn lists_that_are_too_long_are_errors() {
        use super::TryExtend;
        assert!(Vec::new().try_resize(usize::MAX, 0_u8).is_err());
    }
}
