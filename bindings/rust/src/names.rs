//! Checks the names of options: the proved source requires valid ones, and a program may pass any.
//! Also checks counts.

use crate::alloc::AllocError;
use crate::proved::{HasArg, Occur, Options, names_lawful};

impl Options {
    /// Adds an option, with any kind of argument and any number of occurrences, as the last one.
    /// All methods that add an option call it.
    ///
    /// # Errors
    /// Fails only if an allocation fails; the options are then unchanged.
    ///
    /// # Panics
    /// Panics if the names are invalid (see [`names_lawful`]).
    #[inline]
    #[track_caller]
    pub fn add_group(
        &mut self,
        short_name: &str,
        long_name: &str,
        desc: &str,
        hint: &str,
        hasarg: HasArg,
        occur: Occur,
    ) -> Result<(), AllocError> {
        if !names_lawful(short_name, long_name) {
            reject(short_name, long_name);
        }
        self.add_valid_group(short_name, long_name, desc, hint, hasarg, occur)
    }
}

/// Panics with the message of the crate getopts about invalid names, and the name.
#[cold]
#[track_caller]
fn reject(short_name: &str, long_name: &str) -> ! {
    assert!(
        short_name.len() <= 1,
        "the short_name (first argument) should be a single character, \
         or an empty string for none: {short_name:?} has {} bytes",
        short_name.len()
    );
    assert!(
        long_name.len() != 1,
        "the long_name (second argument) should be longer than a single \
         character, or an empty string for none: {long_name:?}"
    );
    panic!("this long-format option was given no name");
}
