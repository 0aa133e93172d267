//! A formally verified command-line option parser, with the types and methods of the crate
//! `getopts` 0.2.24.
//!
//! A program declares its options, parses its arguments, and then asks the matches for what was
//! given:
//!
#![cfg_attr(feature = "std", doc = "```")]
#![cfg_attr(not(feature = "std"), doc = "```ignore")]
//! use getopts::{Fail, Options};
//! use std::process::ExitCode;
//!
//! fn run() -> Result<(), Fail> {
//!     let mut options = Options::new();
//!     options
//!         .optflag("h", "help", "print this help")
//!         .optopt("o", "output", "write to this file", "FILE")
//!         .optflagmulti("v", "verbose", "say more");
//!     let matches = options.parse_ignoring_counts(std::env::args_os().skip(1))?;
//!     if matches.opt_present("help") {
//!         print!("{}", options.usage("Usage: join [options] FILE.."));
//!         return Ok(());
//!     }
//!     matches.check_counts()?;
//!     let output = matches.value("output").unwrap_or("out.txt");
//!     if matches.opt_count("verbose") > 0 {
//!         eprintln!("join: joining {:?} into {output}", matches.free);
//!     }
//!     Ok(())
//! }
//!
//! fn main() -> ExitCode {
//!     match run() {
//!         Ok(()) => ExitCode::SUCCESS,
//!         Err(fail) => {
//!             eprintln!("join: {fail}");
//!             ExitCode::from(2)
//!         }
//!     }
//! }
//! ```
//!
#![cfg_attr(
    feature = "std",
    doc = "
The program passes `args_os()`, because `std::env::args()` would panic if an argument isn't UTF-8.
`parse_ignoring_counts` rejects such an argument, and [`parse_os`](Options::parse_os) accepts it.
Below, a *word* is an element of the command line, such as `-ofile`, and a *free word* a positional
argument.

[`parse`](Options::parse) does what [`parse_ignoring_counts`](Options::parse_ignoring_counts) and
[`check_counts`](Matches::check_counts) do together, so that it rejects `join --help` if a required
option is missing. If the order of options and positional arguments matters, use
[`parse_in_order`](Options::parse_in_order), and to decide while reading what the next words mean,
[`read`](Options::read), or [`read_os`](Options::read_os) if an argument may not be UTF-8.
"
)]
//!
//! # Subcommands
//!
//! If options stop at the first positional argument, this is the subcommand, and the words after it
//! can be parsed with the subcommand's options:
//!
#![cfg_attr(feature = "std", doc = "```")]
#![cfg_attr(not(feature = "std"), doc = "```ignore")]
//! use getopts::{Fail, Options, ParsingStyle};
//!
//! fn run(words: &[&str]) -> Result<String, Fail> {
//!     let mut global = Options::new();
//!     global
//!         .optflag("v", "verbose", "say more")
//!         .parsing_style(ParsingStyle::StopAtFirstFree);
//!     let matches = global.parse(words)?;
//!     match matches.free.split_first() {
//!         Some((command, words)) if command == "add" => {
//!             let mut options = Options::new();
//!             options.optflag("f", "force", "replace files");
//!             let added = options.parse(words)?;
//!             Ok(format!("add {:?}, force: {}", added.free, added.opt_present("f")))
//!         }
//!         Some((command, _)) => Ok(format!("unknown command {command:?}")),
//!         None => Ok("no command".to_string()),
//!     }
//! }
//! assert_eq!(run(&["-v", "add", "--force", "a.txt"]).unwrap(), "add [\"a.txt\"], force: true");
//! ```
//!
//! # Negative numbers
//!
//! Unless it is the argument of the option before it, `-5` is read as the short option `5`, so that
//! users write `--` before it. A program that reads in a loop can take such words as they are:
//!
#![cfg_attr(feature = "std", doc = "```")]
#![cfg_attr(not(feature = "std"), doc = "```ignore")]
//! use getopts::{Fail, Given, Options};
//!
//! /// Reads `sum [-s TEXT] NUMBER..`.
//! fn read<'w>(words: &'w [&str]) -> Result<(&'w str, Vec<&'w str>), Fail> {
//!     let mut options = Options::new();
//!     options.optopt("s", "separator", "print this between the numbers", "TEXT");
//!     let (mut reader, mut separator, mut numbers) = (options.read(words), " ", Vec::new());
//!     loop {
//!         if let Some(number) = reader.next_word_if(|word| word.parse::<i64>().is_ok()) {
//!             numbers.push(number);
//!             continue;
//!         }
//!         match reader.next().transpose()? {
//!             Some(Given::Option { short: "s", value, .. }) => separator = value.unwrap(),
//!             Some(Given::Option { short, .. }) => unreachable!("-{short} has no arm here"),
//!             Some(Given::Free(word)) => numbers.push(word),
//!             None => return Ok((separator, numbers)),
//!         }
//!     }
//! }
//! assert_eq!(read(&["-s", "-1", "-5", "5"]).unwrap(), ("-1", vec!["-5", "5"]));
//! ```
//!
//! # The proved source
//!
//! The other methods of this crate are written by hand on top of proved source, and end the process
//! if an allocation fails. The feature `proved` makes this source public, as the modules `proved`,
//! `alloc` and `fallible`. The methods of `proved` take an allocator, and return an error if an
//! allocation fails. Invalid names panic when they are added, and names that weren't declared count
//! as not given. What is public but not documented here may change in any version.
//!
//! ```
//! # #[cfg(feature = "proved")] {
//! use getopts::alloc::Global;
//! use getopts::proved::{Fail, Options};
//!
//! fn output(words: &[&str]) -> Result<Option<String>, Fail> {
//!     let mut options = Options::new(Global);
//!     options.optopt("o", "output", "set the output file", "NAME")?;
//!     let matches = options.parse_words(Global, words)?;
//!     Ok(matches.opt_str(Global, "output")?)
//! }
//! assert_eq!(output(&["-ofile"]).unwrap().unwrap(), "file");
//! # }
//! ```
//!
//! `README.md` says what differs from the crate `getopts`, and links to what these methods decide
//! by themselves.
#![cfg_attr(not(feature = "std"), no_std)]
#![cfg_attr(docsrs, feature(doc_cfg))]
#![forbid(unsafe_code)]
#![warn(missing_docs)]

extern crate alloc as heap;

mod convert;
#[cfg(feature = "std")]
mod debug;
mod error;
#[cfg(feature = "std")]
mod fail;
#[cfg(feature = "std")]
pub mod iter;
#[cfg(feature = "std")]
mod matches;
mod names;
#[cfg(feature = "std")]
mod options;
#[cfg(feature = "std")]
mod os;
mod width;

/// Declares the modules that are public with the feature `proved`.
macro_rules! modules {
    ($seen:vis) => {
        $seen mod alloc;
        $seen mod fallible;
        /// The proved source. Where it requires a declared name, any other counts as not given.
        ///
        // The source has parts that this crate doesn't use, and is written in Rattle's style.
        #[allow(unused_variables, unused_labels, unused_imports, dead_code, missing_docs, clippy::all)]
        $seen mod proved;
        // The erased `getopts_bytes`: encodes words that aren't UTF-8 as text.
        #[allow(dead_code, clippy::all)]
        #[doc(hidden)]
        $seen mod bytes;
    };
}
#[cfg(feature = "proved")]
modules!(pub);
#[cfg(not(feature = "proved"))]
modules!(pub(crate));

#[cfg(feature = "std")]
pub use fail::{Fail, Result};
#[cfg(feature = "std")]
pub use matches::Matches;
#[cfg(feature = "std")]
pub use options::{Given, Options};
#[cfg(all(feature = "std", feature = "proved"))]
#[doc(hidden)]
pub use os::bytes_of;
#[cfg(feature = "std")]
pub use os::{OsGetError, OsMatches};
// With the feature `proved`, they would otherwise be documented only as re-exports.
#[doc(inline)]
pub use proved::{HasArg, Occur, OptGroup, ParsingStyle};

/// Tests the examples in the README.
#[cfg(all(doctest, feature = "std", feature = "proved"))]
#[doc = include_str!("../README.md")]
struct Readme;
