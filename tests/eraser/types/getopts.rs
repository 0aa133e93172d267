//! The types that erased code has to compile over. Neither they nor `core` have a method that
//! allocates without reporting a failure, so rustc rejects a call of a method of Rust's `String` or
//! `Vec` that the source takes for one of its own.
#![no_std]
#![forbid(unsafe_code)]
#![allow(warnings)]

#[path = "ALLOC"]
pub mod alloc;
pub mod fallible;

pub mod convert {
    pub trait AsStr {
        fn as_str(&self) -> &str;
    }
    impl<T: AsRef<str>> AsStr for T {
        fn as_str(&self) -> &str { loop {} }
    }
}
pub mod error {
    pub trait Error {}
}
pub mod heap {
    pub mod vec {
        pub use crate::fallible::IntoIter;
    }
}
pub mod width {
    pub trait UnicodeWidthStr {
        fn width(&self) -> usize;
    }
    impl UnicodeWidthStr for str {
        fn width(&self) -> usize { loop {} }
    }
}

/// Extra modules, so that `super::` in an erased root names nothing.
pub mod library {
    #[path = "PROVED"]
    pub mod proved;
}
pub mod encoding {
    #[path = "BYTES"]
    pub mod bytes;
}
pub use encoding::bytes;
pub use library::proved;

/// Checks the names that are passed to the erased library.
#[path = "NAMES"]
mod names;
