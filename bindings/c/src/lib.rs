//! Command-line options for C: the functions of `getopts.h`, which call the proved library with its
//! contracts erased.
//!
//! Failed allocations are reported, and nothing panics. All unsafe code is in `c`.
#![no_std]
#![deny(unsafe_code)]
// Debian's rustc 1.63, with which tests build for other targets, needs these features.
#![cfg_attr(old_rustc, feature(default_alloc_error_handler, core_ffi_c, let_else))]

mod c;
mod next;
mod options;
mod reading;
mod table;
mod words;

use c::Text;
use library::alloc::AllocError;
use library::proved::Fail;

/// A status of `getopts.h`.
pub type Status = core::ffi::c_int;
pub const OK: Status = 0;
pub const NO_MEMORY: Status = 6;
pub const BAD: Status = 7;

/// Why words are rejected.
pub enum Error {
    /// The table is invalid, or a word is NULL, as this message says.
    Bad(Text),
    Fail(Fail),
}

impl Error {
    pub fn status(&self) -> Status {
        match self {
            Error::Fail(Fail::ArgumentMissing(_)) => 1,
            Error::Fail(Fail::UnrecognizedOption(_)) => 2,
            Error::Fail(Fail::OptionMissing(_)) => 3,
            Error::Fail(Fail::OptionDuplicated(_)) => 4,
            Error::Fail(Fail::UnexpectedArgument(_)) => 5,
            Error::Fail(Fail::OutOfMemory) => NO_MEMORY,
            Error::Bad(_) => BAD,
        }
    }
}

impl From<Fail> for Error {
    fn from(fail: Fail) -> Error {
        Error::Fail(fail)
    }
}

impl From<AllocError> for Error {
    fn from(_: AllocError) -> Error {
        Error::Fail(Fail::OutOfMemory)
    }
}

/// A result, unless an allocation failed.
pub type AllocResult<T> = Result<T, AllocError>;
