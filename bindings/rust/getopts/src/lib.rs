//! Re-exports `proved-getopts` under the name and version of the crate `getopts`, which it
//! replaces.
#![no_std]

// Not `*`, since a program may have `use getopts::*`. There, `iter` may mean `std::iter`. If
// another package sets the feature `proved` of `proved-getopts`, the program would also get modules
// such as `alloc` and `bytes`, whose names may mean crates.
pub use ::getopts::{
    Fail, Given, HasArg, Matches, Occur, OptGroup, Options, OsGetError, OsMatches, ParsingStyle,
    Result,
};
#[cfg(feature = "proved")]
pub use ::getopts::{alloc, fallible, proved};
