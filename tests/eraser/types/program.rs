//! The types that the erased program for shell scripts has to compile over: what its `host.rs`
//! declares, over the library's types.
#![no_std]
#![forbid(unsafe_code)]
#![allow(warnings)]

extern crate self as std;
pub use core::str;
pub mod process {
    pub struct ExitCode;
    impl From<u8> for ExitCode { fn from(_: u8) -> ExitCode { loop {} } }
}

pub mod host {
    pub use self::alloc::{AllocError, Global};
    pub use ::getopts::fallible::*;

    pub mod alloc {
        pub use ::getopts::alloc::*;
    }
    pub mod env {
        pub enum FillError { NotPresent, TooLong }
        pub trait Env { fn arg(&self, _: usize, _: &mut [u8]) -> Result<usize, FillError>; }
    }
    pub mod io {
        #[derive(PartialEq, Eq)]
        pub enum ErrorKind { Interrupted, WriteZero }
        pub struct Error;
        pub type Result<T> = core::result::Result<T, Error>;
        pub struct Stream;

        impl Error { pub fn kind(&self) -> ErrorKind { loop {} } }
        impl From<ErrorKind> for Error { fn from(_: ErrorKind) -> Error { loop {} } }
        pub trait Write {
            fn write(&mut self, _: &[u8]) -> Result<usize>;
            fn flush(&mut self) -> Result<()>;
        }
        impl Write for Stream {
            fn write(&mut self, _: &[u8]) -> Result<usize> { loop {} }
            fn flush(&mut self) -> Result<()> { loop {} }
        }
        pub fn writer(_: &super::HostRuntime) -> Stream { loop {} }
    }

    pub struct HostRuntime;
    impl HostRuntime {
        pub fn alloc(&self) -> Global { loop {} }
        pub fn stderr(&self) -> io::Stream { loop {} }
    }
    impl env::Env for HostRuntime { fn arg(&self, _: usize, _: &mut [u8]) -> Result<usize, env::FillError> { loop {} } }

    pub trait TrimAscii { fn trimmed_ascii(&self) -> &str; }
    impl TrimAscii for str { fn trimmed_ascii(&self) -> &str { loop {} } }
    pub trait TryExtend<T: Copy> { fn try_resize(&mut self, _: usize, _: T) -> Result<(), AllocError>; }
    impl<T: Copy> TryExtend<T> for Vec<T> { fn try_resize(&mut self, _: usize, _: T) -> Result<(), AllocError> { loop {} } }
    pub trait Written {
        fn try_add(&mut self, _: core::fmt::Arguments<'_>) -> Result<(), AllocError>;
        fn allocator(&self) -> &Global;
    }
    impl Written for String {
        fn try_add(&mut self, _: core::fmt::Arguments<'_>) -> Result<(), AllocError> { loop {} }
        fn allocator(&self) -> &Global { loop {} }
    }

    macro_rules! text {
        (in $alloc:expr; $($form:tt)*) => {{
            let mut text = String::empty($alloc);
            text.try_add(format_args!($($form)*)).map(|()| text)
        }};
    }
    macro_rules! add_line { ($text:expr, $($form:tt)*) => { $text.try_add(format_args!($($form)*)) }; }
    pub(crate) use {add_line, text};
}

pub mod held {
    #[path = "PROGRAM"]
    pub mod program;
}
