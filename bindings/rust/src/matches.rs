//! The matches of an accepted command line.

use crate::alloc::Global;
use crate::debug::{Optval, opts_of};
use crate::fail::{Fail, granted};
use crate::fallible::TryClone;
use crate::iter::{Occurrences, Values};
use crate::proved;
use crate::proved::matches::MatchedOptions;
use std::fmt;
use std::result::Result;
use std::str::FromStr;

/// What an accepted command line contains: the options, with their values, and the positional
/// arguments.
///
/// Methods accept either name of an option.
///
/// ```
/// let mut options = getopts::Options::new();
/// options.optmulti("I", "include", "add a folder", "DIR").optflagmulti("v", "", "say more");
/// let matches = options.parse(["-vI", "src", "in.txt", "-v"]).unwrap();
/// assert_eq!(matches.opt_count("v"), 2);
/// assert_eq!(matches.opt_strs("include"), ["src"]);
/// assert_eq!(matches.free, ["in.txt"]);
/// ```
///
/// # Panics
/// Methods panic if no option has the given name, with a message such as `No option 'zzz' defined`,
/// except [`opt_defined`](Self::opt_defined) and [`opts_present`](Self::opts_present). Methods that
/// stop at the first match ignore the names after it.
#[derive(Clone, PartialEq, Eq)]
pub struct Matches {
    /// The positional arguments (*free words*), in command-line order.
    pub free: Vec<String>,
    /// The proved library's matches.
    held: MatchedOptions,
    trailing_start: Option<usize>,
}

impl Clone for MatchedOptions {
    fn clone(&self) -> MatchedOptions {
        granted(self.try_clone())
    }
}

impl PartialEq for MatchedOptions {
    fn eq(&self, other: &MatchedOptions) -> bool {
        self.same(other)
    }
}

impl Eq for MatchedOptions {}

impl Matches {
    #[inline]
    pub(crate) fn of(proved: proved::Matches) -> Matches {
        Matches { free: proved.free, held: proved.held, trailing_start: proved.trailing_start }
    }

    /// What the proved source found for a name. It finds something if an option has the name.
    #[inline]
    #[track_caller]
    fn found<T>(name: &str, found: Option<T>) -> T {
        match found {
            Some(found) => found,
            None => panic!("No option '{name}' defined"),
        }
    }

    /// The place of the option with this name.
    #[inline]
    #[track_caller]
    pub(crate) fn place(&self, name: &str) -> usize {
        Matches::found(name, self.held.opt_place(name))
    }

    #[inline]
    pub(crate) fn given_at(&self, place: usize) -> Occurrences<'_> {
        Occurrences(self.held.occurrences_of_group(place))
    }

    #[inline]
    #[track_caller]
    fn given(&self, name: &str) -> proved::Occurrences<'_> {
        Matches::found(name, self.held.occurrences(name))
    }

    /// For each option, the list of what `each` returns for its occurrences.
    pub(crate) fn of_each<I: IntoIterator, T>(
        &self,
        given_at: impl Fn(usize) -> I,
        each: impl Fn(I::Item) -> T,
    ) -> Vec<Vec<T>> {
        let places = 0..self.held.signatures().len();
        let given = places.map(|place| given_at(place).into_iter().map(&each).collect());
        given.collect()
    }

    /// Prints matches for `{:?}`, with these free words and occurrences.
    pub(crate) fn show<V: fmt::Debug, I: IntoIterator<Item = (usize, Option<V>)>>(
        &self,
        mut shown: fmt::DebugStruct<'_, '_>,
        free: &dyn fmt::Debug,
        given_at: impl Fn(usize) -> I,
    ) -> fmt::Result {
        let vals = self.of_each(given_at, |(position, value)| {
            (position, value.map_or(Optval::Given, Optval::Val))
        });
        shown.field("opts", &opts_of(&self.held)).field("vals", &vals);
        shown.field("free", free).field("args_end", &self.free_trailing_start()).finish()
    }

    /// Checks how often options occur, in matches of
    /// [`parse_ignoring_counts`](crate::Options::parse_ignoring_counts). Not in the crate getopts.
    ///
    /// Together, the two calls return what [`parse`](crate::Options::parse) does.
    ///
    /// ```
    /// let mut options = getopts::Options::new();
    /// options.optflag("h", "help", "print this help").reqopt("o", "output", "", "NAME");
    /// let matches = options.parse_ignoring_counts(["-h"]).unwrap();
    /// let fail = matches.check_counts().unwrap_err();
    /// assert_eq!(fail.to_string(), "Required option 'output' missing");
    /// ```
    ///
    /// # Errors
    /// Fails with `OptionMissing` or `OptionDuplicated` for the first option, in order of
    /// declaration, that is missing or was given too often.
    pub fn check_counts(&self) -> Result<(), Fail> {
        self.held.check_counts(Global).map_err(Fail::of)
    }

    /// Borrows the value of an option's first occurrence. To copy it, use
    /// [`opt_str`](Self::opt_str). Not in the crate getopts.
    ///
    /// ```
    /// let mut options = getopts::Options::new();
    /// options.optopt("o", "output", "set the output file", "NAME");
    /// assert_eq!(options.parse(["-ofile"]).unwrap().value("output"), Some("file"));
    /// ```
    #[track_caller]
    pub fn value(&self, name: &str) -> Option<&str> {
        self.given(name).first_value()
    }

    /// Borrows the values of those occurrences of an option that have one, in command-line order.
    /// To copy them, use [`opt_strs`](Self::opt_strs). Not in the crate getopts.
    ///
    /// ```
    /// let mut options = getopts::Options::new();
    /// options.optmulti("L", "", "add a folder", "DIR");
    /// let matches = options.parse(["-La", "-L", "b"]).unwrap();
    /// assert!(matches.values("L").eq(["a", "b"]));
    /// ```
    #[inline]
    #[track_caller]
    pub fn values(&self, name: &str) -> Values<Occurrences<'_>> {
        Values(self.occurrences(name))
    }

    /// Borrows the positions and values of an option's occurrences, in command-line order. Not in
    /// the crate getopts.
    ///
    /// ```
    /// let mut options = getopts::Options::new();
    /// options.optflagopt("c", "color", "colour the output", "WHEN");
    /// let matches = options.parse(["in.txt", "--color=auto"]).unwrap();
    /// assert_eq!(matches.occurrences("c").next(), Some((1, Some("auto"))));
    /// ```
    #[inline]
    #[track_caller]
    pub fn occurrences(&self, name: &str) -> Occurrences<'_> {
        Occurrences(self.given(name))
    }

    /// Whether an option has this name. If not, most other methods panic.
    ///
    /// ```
    /// let mut options = getopts::Options::new();
    /// options.optflag("q", "quiet", "say less");
    /// let matches = options.parse(["in.txt"]).unwrap();
    /// assert!(matches.opt_defined("quiet") && !matches.opt_defined("loud"));
    /// ```
    pub fn opt_defined(&self, name: &str) -> bool {
        self.held.opt_place(name).is_some()
    }

    /// Whether an option was given, by either name.
    ///
    /// ```
    /// let mut options = getopts::Options::new();
    /// options.optflag("q", "quiet", "say less");
    /// assert!(options.parse(["-q"]).unwrap().opt_present("quiet"));
    /// ```
    #[inline]
    #[track_caller]
    pub fn opt_present(&self, name: &str) -> bool {
        !self.given(name).is_empty()
    }

    /// How often an option was given, by either name.
    ///
    /// ```
    /// let mut options = getopts::Options::new();
    /// options.optflagmulti("v", "verbose", "say more");
    /// assert_eq!(options.parse(["-vv", "--verbose"]).unwrap().opt_count("v"), 3);
    /// ```
    #[track_caller]
    pub fn opt_count(&self, name: &str) -> usize {
        self.given(name).len()
    }

    /// The position of each occurrence of an option, which is the index of its word. Words that are
    /// values count, too, unlike in the crate getopts.
    ///
    /// ```
    /// let mut options = getopts::Options::new();
    /// options.optflagmulti("v", "", "say more").optopt("o", "", "", "NAME");
    /// let matches = options.parse(["-v", "-o", "x", "-vv"]).unwrap();
    /// assert_eq!(matches.opt_positions("v"), [0, 3, 3]);
    /// ```
    #[track_caller]
    pub fn opt_positions(&self, name: &str) -> Vec<usize> {
        granted(self.given(name).positions(Global))
    }

    /// Whether any of the named options was given. Undefined options count as not given.
    ///
    /// ```
    /// let mut options = getopts::Options::new();
    /// options.optflag("a", "", "").optflag("b", "", "");
    /// let names = ["a", "b", "c"].map(String::from);
    /// assert!(options.parse(["-b"]).unwrap().opts_present(&names));
    /// ```
    pub fn opts_present(&self, names: &[String]) -> bool {
        self.held.opts_present(names)
    }

    /// Whether any of the named options was given. Stops at the first one that was.
    ///
    /// ```
    /// let mut options = getopts::Options::new();
    /// options.optflag("a", "", "").optflag("b", "", "");
    /// assert!(options.parse(["-b"]).unwrap().opts_present_any(["a", "b"]));
    /// ```
    #[track_caller]
    pub fn opts_present_any<C: IntoIterator>(&self, names: C) -> bool
    where
        C::Item: AsRef<str>,
    {
        // A closure wouldn't know the caller.
        for name in names {
            if self.opt_present(name.as_ref()) {
                return true;
            }
        }
        false
    }

    /// The first value that [`opt_str`](Self::opt_str) returns for one of these names. Stops at
    /// that name.
    ///
    /// ```
    /// let mut options = getopts::Options::new();
    /// options.optopt("a", "", "", "A").optopt("b", "", "", "B");
    /// let names = ["a", "b"].map(String::from);
    /// assert_eq!(options.parse(["-bx"]).unwrap().opts_str(&names).unwrap(), "x");
    /// ```
    #[track_caller]
    pub fn opts_str(&self, names: &[String]) -> Option<String> {
        self.opts_str_first(names)
    }

    /// The first value that [`opt_str`](Self::opt_str) returns for one of these names. Stops at
    /// that name.
    ///
    /// ```
    /// let mut options = getopts::Options::new();
    /// options.optopt("a", "", "", "A").optopt("b", "", "", "B");
    /// let matches = options.parse(["-bx"]).unwrap();
    /// assert_eq!(matches.opts_str_first(["a", "b"]).unwrap(), "x");
    /// ```
    #[track_caller]
    pub fn opts_str_first<C: IntoIterator>(&self, names: C) -> Option<String>
    where
        C::Item: AsRef<str>,
    {
        for name in names {
            if let Some(value) = self.opt_str(name.as_ref()) {
                return Some(value);
            }
        }
        None
    }

    /// The values of those occurrences of an option that have one, in command-line order. With
    /// optional arguments, there may be fewer than [`opt_count`](Self::opt_count).
    ///
    /// ```
    /// let mut options = getopts::Options::new();
    /// options.optmulti("L", "", "add a folder", "DIR");
    /// assert_eq!(options.parse(["-La", "-L", "b"]).unwrap().opt_strs("L"), ["a", "b"]);
    /// ```
    #[track_caller]
    pub fn opt_strs(&self, name: &str) -> Vec<String> {
        granted(self.given(name).values(Global))
    }

    /// The position and value of each occurrence that has a value.
    ///
    /// ```
    /// let mut options = getopts::Options::new();
    /// options.optmulti("L", "", "add a folder", "DIR");
    /// let values = options.parse(["-L", "a", "-Lb"]).unwrap().opt_strs_pos("L");
    /// assert_eq!(values, [(0, "a".to_string()), (2, "b".to_string())]);
    /// ```
    #[track_caller]
    pub fn opt_strs_pos(&self, name: &str) -> Vec<(usize, String)> {
        granted(self.given(name).pairs(Global))
    }

    /// The value of an option's first occurrence.
    ///
    /// ```
    /// let mut options = getopts::Options::new();
    /// options.optopt("o", "output", "set the output file", "NAME");
    /// assert_eq!(options.parse(["-ofile"]).unwrap().opt_str("output").unwrap(), "file");
    /// ```
    #[track_caller]
    pub fn opt_str(&self, name: &str) -> Option<String> {
        granted(self.given(name).first_copy(Global))
    }

    /// The value of an option's first occurrence, or `def` if that occurrence has no value. Returns
    /// `None` if the option wasn't given.
    ///
    /// ```
    /// let mut options = getopts::Options::new();
    /// options.optflagopt("c", "color", "colour the output", "WHEN");
    /// let matches = options.parse(["--color"]).unwrap();
    /// assert_eq!(matches.opt_default("color", "auto").unwrap(), "auto");
    /// ```
    #[track_caller]
    pub fn opt_default(&self, name: &str, def: &str) -> Option<String> {
        granted(self.given(name).first_copy_or(Global, def))
    }

    /// Parses the value of an option's first occurrence as a `T`.
    ///
    /// ```
    /// let mut options = getopts::Options::new();
    /// options.optopt("n", "", "", "N");
    /// assert_eq!(options.parse(["-n", "7"]).unwrap().opt_get::<u8>("n"), Ok(Some(7)));
    /// let jobs = options.parse(["-n", "x"]).unwrap().opt_get::<u8>("n");
    /// let error = jobs.map_err(|error| format!("-n: {error}")).unwrap_err();
    /// assert_eq!(error, "-n: invalid digit found in string");
    /// ```
    ///
    /// # Errors
    /// Fails if the value can't be parsed as a `T`.
    #[track_caller]
    pub fn opt_get<T: FromStr>(&self, name: &str) -> Result<Option<T>, T::Err> {
        self.given(name).first_parsed()
    }

    /// Parses the value of an option's first occurrence as a `T`, or returns `def` if there is
    /// none.
    ///
    /// ```
    /// let mut options = getopts::Options::new();
    /// options.optopt("n", "", "", "N");
    /// let none: [&str; 0] = [];
    /// assert_eq!(options.parse(none).unwrap().opt_get_default("n", 7), Ok(7));
    /// ```
    ///
    /// # Errors
    /// Fails if the value can't be parsed as a `T`.
    #[track_caller]
    pub fn opt_get_default<T: FromStr>(&self, name: &str, def: T) -> Result<T, T::Err> {
        self.given(name).first_parsed_or(def)
    }

    /// The index in `free` of the first word after the `--` that ends the options, or `None` if
    /// there is no such word.
    ///
    /// ```
    /// let options = getopts::Options::new();
    /// assert_eq!(options.parse(["a", "--", "b"]).unwrap().free_trailing_start(), Some(1));
    /// ```
    pub fn free_trailing_start(&self) -> Option<usize> {
        self.trailing_start
    }
}

impl fmt::Debug for Matches {
    fn fmt(&self, f: &mut fmt::Formatter<'_>) -> fmt::Result {
        self.show(f.debug_struct("Matches"), &self.free, |place| self.given_at(place))
    }
}
