//! The options that a program declares.

use crate::alloc::Global;
use crate::fail::granted;
use crate::fallible::TryClone;
use crate::iter::Reader;
use crate::{Fail, HasArg, Matches, Occur, OptGroup, ParsingStyle, Result, proved};
use std::collections::HashSet;
use std::ffi::OsStr;
use std::fmt;
use std::mem::size_of;

/// The options that a program accepts, and how to parse them.
///
/// Methods that declare options can be chained. Their first arguments are a short name of one ASCII
/// character and a long name of several bytes; one of them may be empty, but not both. In the help
/// text, `desc` describes the option, and `hint` names its argument, as `FILE` does in `-o FILE`.
///
/// ```
/// let mut options = getopts::Options::new();
/// options
///     .optflag("h", "help", "print this help")
///     .optopt("o", "output", "set the output file", "NAME");
/// let matches = options.parse(["--output=a.txt", "in.txt"]).unwrap();
/// assert_eq!(matches.value("o"), Some("a.txt"));
/// assert_eq!(options.short_usage("copy"), "Usage: copy [-h] [-o NAME]");
/// ```
///
/// # Panics
/// Methods that declare options panic if a name is invalid.
#[derive(PartialEq, Eq)]
pub struct Options {
    pub(crate) proved: proved::Options,
}

impl Default for Options {
    fn default() -> Self {
        Self::new()
    }
}

impl Clone for Options {
    fn clone(&self) -> Options {
        Options { proved: granted(self.proved.try_clone()) }
    }
}

impl fmt::Debug for Options {
    fn fmt(&self, f: &mut fmt::Formatter<'_>) -> fmt::Result {
        f.debug_struct("Options")
            .field("grps", &self.iter().collect::<Vec<_>>())
            .field("parsing_style", &self.proved.style())
            .field("long_only", &self.proved.is_long_only())
            .finish()
    }
}

/// An option or a positional argument, as [`Options::parse_in_order`] returns it. `T` is `OsString`
/// from [`parse_os_in_order`](Options::parse_os_in_order), `&str` from [`read`](Options::read), and
/// `Cow<OsStr>` from [`read_os`](Options::read_os).
///
/// ```
/// use getopts::{Given, Options};
///
/// let mut options = Options::new();
/// options.optmulti("l", "library", "link with NAME", "NAME");
/// let given = options.parse_in_order(["a.o", "-lm"]).unwrap();
/// let inputs = given.into_iter().map(|given| match given {
///     Given::Option { long: "library", value, .. } => format!("library {}", value.unwrap()),
///     Given::Option { .. } => unreachable!(),
///     Given::Free(file) => file,
/// });
/// assert!(inputs.eq(["a.o", "library m"]));
/// ```
#[derive(Clone, Debug, PartialEq, Eq)]
pub enum Given<'o, T = String> {
    /// An option, with both names as declared, so that a pattern may use either. Later versions may
    /// add fields.
    #[non_exhaustive]
    Option {
        /// Its short name, or `""`.
        short: &'o str,
        /// Its long name, or `""`.
        long: &'o str,
        /// Its value, if it has one.
        value: Option<T>,
    },
    /// A positional argument (*free word*).
    Free(T),
}

impl<'o, T> Given<'o, T> {
    /// The same with the names of the option, and with converted texts.
    #[inline]
    pub(crate) fn of<'w>(
        options: &'o proved::Options,
        given: proved::Given<'w>,
        convert: impl Fn(&'w str) -> T,
    ) -> Given<'o, T> {
        match given {
            proved::Given::Option { place, value } => {
                let names = options.groups().signatures().get(place);
                let value = value.map(convert);
                Given::Option { short: names.short, long: names.long, value }
            }
            proved::Given::Free(word) => Given::Free(convert(word)),
        }
    }

    /// The same with another text.
    pub(crate) fn map<U>(self, convert: impl Fn(T) -> U) -> Given<'o, U> {
        match self {
            Given::Option { short, long, value } => {
                Given::Option { short, long, value: value.map(convert) }
            }
            Given::Free(word) => Given::Free(convert(word)),
        }
    }
}

/// How many items and texts stay on the stack, and the most bytes of an item that may.
const FEW: usize = 11;
const SMALL: usize = 64;
/// The most bytes of a list because of `size_hint`, which may promise too many items.
const MOST: usize = 1 << 22;

/// Calls `ask` with the texts of all words or, if a word has none, `otherwise` with the words and
/// the index of the first such word.
pub(crate) fn read_words<A: AsRef<OsStr>, T>(
    words: impl Iterator<Item = A>,
    text_of: impl Fn(&OsStr) -> Option<&str>,
    ask: impl FnOnce(&[&str]) -> T,
    otherwise: impl FnOnce(&[&OsStr], usize) -> T,
) -> T {
    if size_of::<A>() <= SMALL {
        return read_small(words, text_of, ask, otherwise);
    }
    let mut list = Vec::new();
    words.for_each(|word| list.push(word));
    read_small(list.iter().map(A::as_ref), text_of, ask, otherwise)
}

/// The same, with the first `FEW` items on the stack.
fn read_small<A: AsRef<OsStr>, T>(
    mut words: impl Iterator<Item = A>,
    text_of: impl Fn(&OsStr) -> Option<&str>,
    ask: impl FnOnce(&[&str]) -> T,
    otherwise: impl FnOnce(&[&OsStr], usize) -> T,
) -> T {
    let (mut few, mut texts, mut count) = (<[Option<A>; FEW]>::default(), [""; FEW], 0);
    for item in &mut few {
        *item = words.next();
        match item.as_ref().map(|word| text_of(word.as_ref())) {
            None => return ask(&texts[..count]),
            Some(Some(text)) => texts[count] = text,
            Some(None) => break,
        }
        count += 1;
    }
    let mut others = Vec::new();
    others.reserve_exact(words.size_hint().0.min(MOST / size_of::<A>().max(1)));
    words.for_each(|word| others.push(word));
    if count == FEW {
        let mut texts = texts.to_vec();
        texts.reserve_exact(others.len());
        texts.extend(others.iter().map_while(|word| text_of(word.as_ref())));
        count = texts.len();
        if count == FEW + others.len() {
            return ask(&texts);
        }
    }
    let words = few.iter().flatten().chain(&others);
    otherwise(&words.map(A::as_ref).collect::<Vec<_>>(), count)
}

impl Options {
    /// Creates an empty set of options, in the style `FloatingFrees` and with long-only mode off.
    ///
    /// ```
    /// let options = getopts::Options::new();
    /// assert_eq!(options.parse(["in.txt"]).unwrap().free, ["in.txt"]);
    /// ```
    pub fn new() -> Options {
        Options { proved: proved::Options::new(Global) }
    }

    /// Sets whether options may follow the first positional argument (*free word*).
    ///
    /// ```
    /// use getopts::{Options, ParsingStyle};
    /// let mut options = Options::new();
    /// options.optflag("q", "", "").parsing_style(ParsingStyle::StopAtFirstFree);
    /// assert_eq!(options.parse(["-q", "run", "-x"]).unwrap().free, ["run", "-x"]);
    /// ```
    pub fn parsing_style(&mut self, style: ParsingStyle) -> &mut Options {
        self.proved.parsing_style(style);
        self
    }

    /// Turns long-only mode on or off. In this mode, one dash or two may precede a long name, and
    /// each short option needs a word of its own: `-vv` and `-ofile` aren't accepted. An optional
    /// argument needs `=`, also after a short name.
    ///
    /// ```
    /// let mut options = getopts::Options::new();
    /// options.optflag("q", "quiet", "say less").long_only(true);
    /// assert!(options.parse(["-quiet"]).unwrap().opt_present("q"));
    /// ```
    pub fn long_only(&mut self, long_only: bool) -> &mut Options {
        self.proved.long_only(long_only);
        self
    }

    /// Adds an option. `hasarg` says whether it takes an argument, and `occur` how often it may
    /// occur.
    ///
    /// ```
    /// use getopts::{HasArg, Occur, Options};
    /// let mut options = Options::new();
    /// options.opt("c", "color", "colour the output", "WHEN", HasArg::Maybe, Occur::Multi);
    /// assert_eq!(options.parse(["-c", "--color=auto"]).unwrap().opt_count("c"), 2);
    /// ```
    #[track_caller]
    pub fn opt(
        &mut self,
        short_name: &str,
        long_name: &str,
        desc: &str,
        hint: &str,
        hasarg: HasArg,
        occur: Occur,
    ) -> &mut Options {
        granted(self.proved.add_group(short_name, long_name, desc, hint, hasarg, occur));
        self
    }

    /// Adds an option without an argument that may occur once.
    ///
    /// ```
    /// let mut options = getopts::Options::new();
    /// options.optflag("q", "quiet", "say less");
    /// assert!(options.parse(["--quiet"]).unwrap().opt_present("q"));
    /// ```
    #[track_caller]
    pub fn optflag(&mut self, short: &str, long: &str, desc: &str) -> &mut Options {
        self.opt(short, long, desc, "", HasArg::No, Occur::Optional)
    }

    /// Adds an option without an argument that may occur any number of times.
    ///
    /// ```
    /// let mut options = getopts::Options::new();
    /// options.optflagmulti("v", "verbose", "say more");
    /// assert_eq!(options.parse(["-vv", "--verbose"]).unwrap().opt_count("v"), 3);
    /// ```
    #[track_caller]
    pub fn optflagmulti(&mut self, short: &str, long: &str, desc: &str) -> &mut Options {
        self.opt(short, long, desc, "", HasArg::No, Occur::Multi)
    }

    /// Adds an option with an optional argument that may occur once.
    ///
    /// ```
    /// let mut options = getopts::Options::new();
    /// options.optflagopt("c", "color", "colour the output", "WHEN");
    /// assert_eq!(options.parse(["--color"]).unwrap().opt_default("c", "auto").unwrap(), "auto");
    /// ```
    #[track_caller]
    pub fn optflagopt(&mut self, short: &str, long: &str, desc: &str, hint: &str) -> &mut Options {
        self.opt(short, long, desc, hint, HasArg::Maybe, Occur::Optional)
    }

    /// Adds an option with a mandatory argument that may occur any number of times. If the last one
    /// should win, as in `-O1 -O2`, take `matches.values("O").next_back()`.
    ///
    /// ```
    /// let mut options = getopts::Options::new();
    /// options.optmulti("L", "", "add a folder", "DIR");
    /// assert_eq!(options.parse(["-La", "-L", "b"]).unwrap().opt_strs("L"), ["a", "b"]);
    /// ```
    #[track_caller]
    pub fn optmulti(&mut self, short: &str, long: &str, desc: &str, hint: &str) -> &mut Options {
        self.opt(short, long, desc, hint, HasArg::Yes, Occur::Multi)
    }

    /// Adds an option with a mandatory argument that may occur once.
    ///
    /// ```
    /// let mut options = getopts::Options::new();
    /// options.optopt("o", "output", "set the output file", "NAME");
    /// assert_eq!(options.parse(["--output=a"]).unwrap().opt_str("o").unwrap(), "a");
    /// ```
    #[track_caller]
    pub fn optopt(&mut self, short: &str, long: &str, desc: &str, hint: &str) -> &mut Options {
        self.opt(short, long, desc, hint, HasArg::Yes, Occur::Optional)
    }

    /// Adds a required option with a mandatory argument: it must occur exactly once.
    ///
    /// ```
    /// let mut options = getopts::Options::new();
    /// options.reqopt("i", "input", "read this file", "NAME");
    /// assert!(options.parse(["free"]).is_err());
    /// ```
    #[track_caller]
    pub fn reqopt(&mut self, short: &str, long: &str, desc: &str, hint: &str) -> &mut Options {
        self.opt(short, long, desc, hint, HasArg::Yes, Occur::Req)
    }

    /// Parses a command line, excluding the program's own name.
    ///
    /// ```
    /// let mut options = getopts::Options::new();
    /// options.optopt("o", "output", "set the output file", "NAME");
    /// let matches = options.parse(["-ofile", "in.txt"]).unwrap();
    /// assert_eq!(matches.opt_str("output").unwrap(), "file");
    /// assert_eq!(matches.free, ["in.txt"]);
    /// let fail = options.parse(["--output"]).unwrap_err();
    /// assert_eq!(fail.to_string(), "Argument to option 'output' missing");
    /// ```
    ///
    /// For a program's own arguments, pass `std::env::args_os().skip(1)`; `std::env::args()` panics
    /// if an argument isn't UTF-8 ([`parse_os`](Self::parse_os) accepts these). All items are
    /// taken, even after one that isn't UTF-8.
    ///
    /// # Errors
    /// See [`Fail`].
    pub fn parse<C: IntoIterator>(&self, args: C) -> Result
    where
        C::Item: AsRef<OsStr>,
    {
        self.with_texts(args, parse_texts)
    }

    /// Parses a command line like [`parse`](Self::parse), but doesn't check how often options
    /// occur: a required option may be missing, and an option that may occur once may occur several
    /// times. Not in the crate getopts.
    ///
    /// Use it to print help even if a required option is missing, before
    /// [`check_counts`](crate::Matches::check_counts):
    ///
    /// ```
    /// use getopts::{Fail, Options};
    ///
    /// fn run(words: &[&str]) -> Result<String, Fail> {
    ///     let mut options = Options::new();
    ///     options.optflag("h", "help", "print this help").reqopt("o", "output", "", "NAME");
    ///     let matches = options.parse_ignoring_counts(words)?;
    ///     if matches.opt_present("help") {
    ///         return Ok(options.usage("Usage: copy -o NAME"));
    ///     }
    ///     matches.check_counts()?;
    ///     Ok(matches.opt_str("output").unwrap_or_default())
    /// }
    /// assert!(run(&["--help"]).unwrap().starts_with("Usage: copy -o NAME"));
    /// assert_eq!(run(&["-oa.txt"]).unwrap(), "a.txt");
    /// assert_eq!(run(&[]), Err(Fail::OptionMissing("output".to_string())));
    /// ```
    ///
    /// # Errors
    /// Fails with `ArgumentMissing`, `UnrecognizedOption` or `UnexpectedArgument`; see [`Fail`].
    pub fn parse_ignoring_counts<C: IntoIterator>(&self, args: C) -> Result
    where
        C::Item: AsRef<OsStr>,
    {
        self.with_texts(args, read_texts)
    }

    /// Parses a command line like [`parse`](Self::parse), and returns its options and positional
    /// arguments in the order in which they were given. Not in the crate getopts.
    ///
    /// Use it if an option applies to the positional arguments after it, or if the order of
    /// different options matters: `opt_positions` can't order options in one word, such as `-vq`.
    /// Positions, and which arguments followed `--`, are in the matches of `parse`.
    ///
    /// ```
    /// use getopts::{Given, Options};
    ///
    /// let mut options = Options::new();
    /// options.optmulti("C", "directory", "take the next files from DIR", "DIR");
    /// let (mut folder, mut paths) = (String::from("."), Vec::new());
    /// for given in options.parse_in_order(["-C", "src", "a", "b", "-Clib", "c"]).unwrap() {
    ///     match given {
    ///         Given::Option { short: "C", value, .. } => folder = value.unwrap(),
    ///         Given::Option { long, .. } => unreachable!("--{long} has no arm here"),
    ///         Given::Free(file) => paths.push(format!("{folder}/{file}")),
    ///     }
    /// }
    /// assert_eq!(paths, ["src/a", "src/b", "lib/c"]);
    /// ```
    ///
    /// # Errors
    /// Fails if [`parse`](Self::parse) would.
    pub fn parse_in_order<C: IntoIterator>(
        &self,
        args: C,
    ) -> std::result::Result<Vec<Given<'_>>, Fail>
    where
        C::Item: AsRef<OsStr>,
    {
        self.with_texts(args, texts_in_order)
    }

    /// Reads a command line in a loop of yours, one option or positional argument at a time. Not in
    /// the crate getopts.
    ///
    /// Use it if you decide while reading what the next words mean: to pass the words after a
    /// command to it, to take an argument that looks like an option ([`Reader::next_word_if`]), or
    /// to print help even if an error follows. Otherwise, use [`parse`](Self::parse) or
    /// [`parse_in_order`](Self::parse_in_order).
    ///
    /// ```
    /// use getopts::{Fail, Given, Options};
    ///
    /// /// Reads `launch [-C DIR] COMMAND [WORD]..`.
    /// fn launch(words: &[&str]) -> Result<String, Fail> {
    ///     let mut options = Options::new();
    ///     options.optflag("h", "help", "print this help").optopt("C", "", "run it in DIR", "DIR");
    ///     let (mut reader, mut dir) = (options.read(words), ".");
    ///     while let Some(given) = reader.next() {
    ///         match given? {
    ///             Given::Option { short: "C", value, .. } => dir = value.unwrap(),
    ///             Given::Option { long: "help", .. } => return Ok(options.usage("Usage: launch ..")),
    ///             Given::Option { short, .. } => unreachable!("-{short} has no arm here"),
    ///             Given::Free(name) => return Ok(format!("{dir}: {name} {:?}", reader.words())),
    ///         }
    ///     }
    ///     Ok("no command".to_string())
    /// }
    /// assert_eq!(launch(&["-C", "src", "make", "-j", "4"]).unwrap(), r#"src: make ["-j", "4"]"#);
    /// assert!(launch(&["--help", "--unknown"]).unwrap().starts_with("Usage: launch .."));
    /// ```
    ///
    /// For a program's own arguments, collect `args_os().skip(1).map(OsString::into_string)` into a
    /// `Result<Vec<String>, OsString>`. Its error is the first argument that isn't UTF-8, which
    /// [`read_os`](Self::read_os) accepts.
    ///
    /// # Errors
    /// If a word can't be read, the last item is an `ArgumentMissing`, `UnrecognizedOption` or
    /// `UnexpectedArgument` (see [`Fail`]). Nothing checks how often options occur.
    pub fn read<'o, 'w, S: AsRef<str>>(&'o self, words: &'w [S]) -> Reader<'o, 'w, S> {
        Reader::of(&self.proved, words)
    }

    /// Calls `ask` with the proved options and the words. Rejects the first word that isn't UTF-8.
    fn with_texts<'o, T>(
        &'o self,
        args: impl IntoIterator<Item = impl AsRef<OsStr>>,
        ask: impl Fn(&'o proved::Options, &[&str]) -> std::result::Result<T, Fail>,
    ) -> std::result::Result<T, Fail> {
        read_words(
            args.into_iter(),
            OsStr::to_str,
            |texts| ask(&self.proved, texts),
            |words, nth| Err(not_text(words[nth])),
        )
    }

    /// Parses a command line like [`parse`](Self::parse), and rewrites it in canonical form: each
    /// option as `--name` or `--name=value`, with its long name or, if it has none, its short one,
    /// then `--`, then the positional arguments. Not in the crate getopts.
    ///
    /// Returns `None` if the command line gives an option for which this name contains `=`.
    ///
    /// ```
    /// let mut options = getopts::Options::new();
    /// options.optflag("v", "verbose", "say more").optopt("o", "output", "", "NAME");
    /// let line = options.canonical(["-vofile", "x"]).unwrap().unwrap();
    /// assert_eq!(line, ["--verbose", "--output=file", "--", "x"]);
    /// ```
    ///
    /// # Errors
    /// Fails if [`parse`](Self::parse) would.
    pub fn canonical<C: IntoIterator>(
        &self,
        args: C,
    ) -> std::result::Result<Option<Vec<String>>, Fail>
    where
        C::Item: AsRef<OsStr>,
    {
        self.with_texts(args, canonical_texts)
    }

    /// Iterates over the declared options, in order of declaration. Not in the crate getopts.
    ///
    /// Use it to print what help texts don't contain, such as a manual page: `examples/manual.rs`
    /// prints one.
    ///
    /// ```
    /// use getopts::HasArg;
    ///
    /// let mut options = getopts::Options::new();
    /// options.optflag("h", "help", "print this help").optopt("o", "output", "", "NAME");
    /// let flags = options.iter().filter(|group| group.hasarg == HasArg::No);
    /// assert!(flags.map(|group| group.long_name).eq(["help"]));
    /// ```
    pub fn iter(&self) -> impl DoubleEndedIterator<Item = OptGroup<'_>> {
        (0..self.proved.len()).filter_map(|place| self.proved.get(place))
    }

    /// Returns the first name, in order of declaration, that an earlier option has, too, or `None`
    /// if all names differ. On a command line, the name means only one of these options. Not in the
    /// crate getopts.
    ///
    /// ```
    /// let mut options = getopts::Options::new();
    /// options.optflag("o", "open", "").optopt("o", "output", "", "NAME");
    /// assert_eq!(options.repeated_name(), Some("o"));
    /// ```
    pub fn repeated_name(&self) -> Option<&str> {
        let (names, mut seen) =
            (self.iter().map(|it| [it.short_name, it.long_name]), HashSet::new());
        names.flatten().find(|name| !name.is_empty() && !seen.insert(*name))
    }

    /// Returns a usage line with all options.
    ///
    /// ```
    /// let mut options = getopts::Options::new();
    /// options.reqopt("i", "input", "", "NAME").optflag("q", "quiet", "");
    /// assert_eq!(options.short_usage("copy"), "Usage: copy -i NAME [-q]");
    /// ```
    pub fn short_usage(&self, program_name: &str) -> String {
        granted(self.proved.short_usage(Global, program_name))
    }

    /// Returns the help text: `brief`, and each option with its description.
    ///
    /// ```
    /// let mut options = getopts::Options::new();
    /// options.optflag("h", "help", "print this");
    /// let text = options.usage("Usage: copy FILE");
    /// assert_eq!(text, "Usage: copy FILE\n\nOptions:\n    -h, --help          print this\n");
    /// ```
    pub fn usage(&self, brief: &str) -> String {
        granted(self.proved.usage(Global, brief))
    }

    /// Returns the help text with descriptions that end within this many columns, such as the width
    /// of a terminal. [`usage(brief)`](Self::usage) is `usage_in(brief, 78)`.
    ///
    /// Descriptions begin after 24 columns. A word that doesn't fit has a row of its own.
    ///
    /// ```
    /// let mut options = getopts::Options::new();
    /// options.optflag("h", "help", "print this and exit");
    /// let text = options.usage_in("Usage: copy FILE", 34);
    /// let rows = "    -h, --help          print this\n                        and exit\n";
    /// assert_eq!(text, format!("Usage: copy FILE\n\nOptions:\n{rows}"));
    /// ```
    pub fn usage_in(&self, brief: &str, columns: usize) -> String {
        granted(self.proved.usage_in(Global, brief, columns))
    }

    /// Passes the rows that describe the options to a closure, and returns its result. All rows are
    /// created before it runs.
    ///
    /// ```
    /// let mut options = getopts::Options::new();
    /// options.optflag("h", "help", "print this");
    /// let text = options.usage_with_format(|rows| rows.collect::<Vec<_>>().join("\n"));
    /// assert_eq!(text, "    -h, --help          print this");
    /// ```
    ///
    /// Rows are in order of declaration, so a program can hide options, or put them into groups:
    ///
    /// ```
    /// let mut options = getopts::Options::new();
    /// options.optflag("h", "help", "print this").optflag("", "debug-me", "for developers");
    /// let is_hidden = [false, true];
    /// let text = options.usage_with_format(|rows| {
    ///     let shown = rows.zip(is_hidden).filter(|(_, is_hidden)| !is_hidden);
    ///     shown.map(|(row, _)| row + "\n").collect()
    /// });
    /// assert_eq!(text, "    -h, --help          print this\n");
    /// ```
    pub fn usage_with_format<F: FnMut(&mut dyn Iterator<Item = String>) -> String>(
        &self,
        mut formatter: F,
    ) -> String {
        let rows = granted(self.proved.usage_rows(Global));
        formatter(&mut rows.into_iter())
    }
}

/// The error of a word that isn't UTF-8.
pub(crate) fn not_text(word: &OsStr) -> Fail {
    Fail::UnrecognizedOption(format!("{word:?}"))
}

// The proved methods for borrowed texts. They are generic: here they are compiled once, and not
// again in each program that calls them.

pub(crate) fn parse_texts(options: &proved::Options, words: &[&str]) -> Result {
    options.parse_words(Global, words).map(Matches::of).map_err(Fail::of)
}

pub(crate) fn read_texts(options: &proved::Options, words: &[&str]) -> Result {
    options.parse_ignoring_counts(Global, words).map(Matches::of).map_err(Fail::of)
}

pub(crate) fn texts_in_order<'o>(
    options: &'o proved::Options,
    words: &[&str],
) -> std::result::Result<Vec<Given<'o>>, Fail> {
    let order = options.parse_in_order(Global, words).map_err(Fail::of)?;
    Ok(order.iter().map(|given| Given::of(options, *given, String::from)).collect())
}

fn canonical_texts(
    options: &proved::Options,
    words: &[&str],
) -> std::result::Result<Option<Vec<String>>, Fail> {
    options.canonical_words(Global, words).map_err(Fail::of)
}
