//! Command lines with arguments that aren't UTF-8, such as file names.

use crate::bytes::{plain_text, push_bytes, push_text};
use crate::fail::granted;
use crate::iter::{OsOccurrences, OsReader, Values};
use crate::options::{parse_texts, read_texts, read_words, texts_in_order};
use crate::{Fail, Given, Matches, Options, proved};
use std::borrow::Cow;
use std::error::Error;
use std::ffi::{OsStr, OsString};
use std::fmt;
use std::result::Result;
use std::str::FromStr;

/// The matches of an accepted command line, which needn't be UTF-8. See [`Options::parse_os`].
///
/// Methods panic if no option has the given name, except [`opt_defined`](Self::opt_defined).
///
/// ```
/// # #[cfg(unix)] {
/// use std::ffi::OsStr;
/// use std::os::unix::ffi::OsStrExt;
///
/// let mut options = getopts::Options::new();
/// options.optopt("o", "output", "set the output file", "NAME");
/// let matches = options.parse_os([OsStr::from_bytes(b"-ocaf\xe9")]).unwrap();
/// assert_eq!(matches.value("output").unwrap(), OsStr::from_bytes(b"caf\xe9"));
/// # }
/// ```
#[derive(Clone, PartialEq, Eq)]
pub struct OsMatches {
    /// The positional arguments (*free words*), in command-line order.
    pub free: Vec<OsString>,
    matches: Matches,
    /// The values of each option, decoded, if a word wasn't text. Otherwise empty: `matches` has
    /// the values.
    values: Vec<Vec<Option<OsString>>>,
}

/// Why [`OsMatches::opt_get`] couldn't parse a value.
///
/// ```
/// use std::error::Error;
///
/// fn number(word: &str) -> Result<Option<u8>, Box<dyn Error>> {
///     let mut options = getopts::Options::new();
///     options.optopt("n", "", "set the number", "N");
///     Ok(options.parse_os(["-n", word])?.opt_get("n")?)
/// }
/// assert_eq!(number("7").unwrap(), Some(7));
/// assert_eq!(number("x").unwrap_err().to_string(), "invalid digit found in string");
/// ```
#[derive(Clone, Debug, PartialEq, Eq)]
pub enum OsGetError<E> {
    /// The value isn't UTF-8.
    NotUtf8,
    /// The error of `FromStr`.
    Invalid(E),
}

impl<E: fmt::Display> fmt::Display for OsGetError<E> {
    fn fmt(&self, f: &mut fmt::Formatter<'_>) -> fmt::Result {
        match self {
            OsGetError::NotUtf8 => f.write_str("invalid UTF-8"),
            OsGetError::Invalid(error) => error.fmt(f),
        }
    }
}

impl<E: Error> Error for OsGetError<E> {
    fn source(&self) -> Option<&(dyn Error + 'static)> {
        match self {
            OsGetError::NotUtf8 => None,
            // `Display` prints the error itself.
            OsGetError::Invalid(error) => error.source(),
        }
    }
}

impl Options {
    /// Parses a command line like [`parse`](Self::parse), but also accepts arguments that aren't
    /// UTF-8. Values and positional arguments are returned as they were given. Not in the crate
    /// getopts.
    ///
    /// Arguments may be any bytes on Unix, and may contain lone surrogates on Windows; elsewhere
    /// they must be UTF-8. Errors contain U+FFFD in place of invalid bytes or surrogates.
    ///
    /// An option whose name contains a character from U+10FF80 up isn't found by that name, but by
    /// the name with a byte in its place: here, these characters represent bytes that aren't UTF-8.
    /// `parse` finds it by its name.
    ///
    /// ```
    /// use std::ffi::OsString;
    /// let mut options = getopts::Options::new();
    /// options.optopt("o", "output", "set the output file", "NAME");
    /// let words = ["-o", "file", "in.txt"].map(OsString::from);
    /// let matches = options.parse_os(&words).unwrap();
    /// assert_eq!(matches.value("output").unwrap(), "file");
    /// assert_eq!(matches.free, ["in.txt"]);
    /// ```
    ///
    /// For a program's own arguments, pass `std::env::args_os().skip(1)`.
    ///
    /// # Errors
    /// See [`Fail`].
    pub fn parse_os<C: IntoIterator>(&self, args: C) -> Result<OsMatches, Fail>
    where
        C::Item: AsRef<OsStr>,
    {
        self.with_os_texts(args, parse_texts, OsMatches::of)
    }

    /// Parses a command line like [`parse_os`](Self::parse_os), but doesn't check how often options
    /// occur.
    ///
    /// ```
    /// let mut options = getopts::Options::new();
    /// options.optflag("h", "help", "print this help").reqopt("o", "output", "", "NAME");
    /// let matches = options.parse_os_ignoring_counts(["-h"]).unwrap();
    /// assert!(matches.opt_present("help") && matches.check_counts().is_err());
    /// ```
    ///
    /// # Errors
    /// See [`parse_ignoring_counts`](Self::parse_ignoring_counts).
    pub fn parse_os_ignoring_counts<C: IntoIterator>(&self, args: C) -> Result<OsMatches, Fail>
    where
        C::Item: AsRef<OsStr>,
    {
        self.with_os_texts(args, read_texts, OsMatches::of)
    }

    /// Parses a command line like [`parse_os`](Self::parse_os), and returns its options and
    /// positional arguments in order, as [`parse_in_order`](Self::parse_in_order) does.
    ///
    /// ```
    /// use getopts::Given;
    ///
    /// let mut options = getopts::Options::new();
    /// options.optmulti("I", "", "add a folder", "DIR");
    /// match &options.parse_os_in_order(["in.txt", "-Isrc"]).unwrap()[..] {
    ///     [Given::Free(file), Given::Option { short: "I", value: Some(folder), .. }] => {
    ///         assert!(file == "in.txt" && folder == "src");
    ///     }
    ///     given => panic!("{given:?}"),
    /// }
    /// ```
    ///
    /// # Errors
    /// Fails if [`parse_os`](Self::parse_os) would.
    pub fn parse_os_in_order<C: IntoIterator>(
        &self,
        args: C,
    ) -> Result<Vec<Given<'_, OsString>>, Fail>
    where
        C::Item: AsRef<OsStr>,
    {
        self.with_os_texts(args, texts_in_order, |given, marked| {
            let word = |text: String| if marked { os_of(&text) } else { text.into() };
            given.into_iter().map(|given| given.map(word)).collect()
        })
    }

    /// Reads a command line in a loop of yours, as [`read`](Self::read) does, but also accepts
    /// arguments that aren't UTF-8.
    ///
    /// ```
    /// use getopts::{Fail, Given, Options};
    /// use std::ffi::{OsStr, OsString};
    ///
    /// /// Reads `launch [-C DIR] COMMAND [WORD]..`.
    /// fn launch(options: &Options, words: &[OsString]) -> Result<String, Fail> {
    ///     let (mut reader, mut dir) = (options.read_os(words), OsStr::new(".").into());
    ///     while let Some(given) = reader.next() {
    ///         match given? {
    ///             Given::Option { short: "C", value, .. } => dir = value.unwrap(),
    ///             Given::Option { short, .. } => unreachable!("-{short} has no arm here"),
    ///             Given::Free(it) => return Ok(format!("{dir:?}: {it:?} {:?}", reader.words())),
    ///         }
    ///     }
    ///     Ok("no command".to_string())
    /// }
    /// let mut options = Options::new();
    /// options.optopt("C", "", "run it in DIR", "DIR");
    /// let words = ["-Csrc", "make", "-j", "4"].map(OsString::from);
    /// assert_eq!(launch(&options, &words).unwrap(), r#""src": "make" ["-j", "4"]"#);
    /// ```
    ///
    /// For a program's own arguments, collect `args_os().skip(1)` into a `Vec<OsString>`.
    ///
    /// # Errors
    /// As in `read`. What [`parse_os`](Self::parse_os) says of arguments, errors and names that
    /// aren't UTF-8 applies here, too.
    pub fn read_os<'o, 'w, S: AsRef<OsStr>>(&'o self, words: &'w [S]) -> OsReader<'o, 'w, S> {
        OsReader::of(&self.proved, words)
    }

    /// Calls `ask` with the proved options and the words, and `of` with its result and whether a
    /// word wasn't text.
    fn with_os_texts<'o, T, U>(
        &'o self,
        args: impl IntoIterator<Item = impl AsRef<OsStr>>,
        ask: impl Fn(&'o proved::Options, &[&str]) -> Result<T, Fail>,
        of: impl Fn(T, bool) -> U,
    ) -> Result<U, Fail> {
        read_words(
            args.into_iter(),
            plain,
            |texts| ask(&self.proved, texts).map(|given| of(given, false)),
            |words, _| {
                let texts =
                    words.iter().map(|word| text_of(word)).collect::<Result<Vec<_>, _>>()?;
                let texts: Vec<_> = texts.iter().map(|text| &**text).collect();
                match ask(&self.proved, &texts) {
                    Ok(given) => Ok(of(given, true)),
                    // The loop has the same error, with a name that can be shown, except for an
                    // error of counts, whose name is declared.
                    Err(fail) => Err(self.read_os(words).find_map(Result::err).unwrap_or(fail)),
                }
            },
        )
    }
}

impl OsMatches {
    fn of(mut matches: Matches, marked: bool) -> OsMatches {
        let free = std::mem::take(&mut matches.free).into_iter();
        if !marked {
            let free = free.map(OsString::from).collect();
            return OsMatches { free, matches, values: Vec::new() };
        }
        let free = free.map(|text| os_of(&text)).collect();
        let values =
            matches.of_each(|place| matches.given_at(place), |(_, value)| value.map(os_of));
        OsMatches { free, matches, values }
    }

    /// Checks how often options occur, as [`Matches::check_counts`] does, in matches of
    /// [`parse_os_ignoring_counts`](Options::parse_os_ignoring_counts).
    ///
    /// ```
    /// let mut options = getopts::Options::new();
    /// options.optopt("o", "output", "", "NAME");
    /// let matches = options.parse_os_ignoring_counts(["-oa", "-ob"]).unwrap();
    /// let fail = matches.check_counts().unwrap_err();
    /// assert_eq!(fail.to_string(), "Option 'output' given more than once");
    /// ```
    ///
    /// # Errors
    /// See [`Matches::check_counts`].
    pub fn check_counts(&self) -> Result<(), Fail> {
        self.matches.check_counts()
    }

    /// Whether an option has this name.
    ///
    /// ```
    /// let mut options = getopts::Options::new();
    /// options.optflag("q", "quiet", "say less");
    /// let matches = options.parse_os(["in.txt"]).unwrap();
    /// assert!(matches.opt_defined("quiet") && !matches.opt_defined("loud"));
    /// ```
    pub fn opt_defined(&self, name: &str) -> bool {
        self.matches.opt_defined(name)
    }

    /// Whether an option was given, by either name.
    ///
    /// ```
    /// let mut options = getopts::Options::new();
    /// options.optflag("q", "quiet", "say less");
    /// assert!(options.parse_os(["-q"]).unwrap().opt_present("quiet"));
    /// ```
    #[track_caller]
    pub fn opt_present(&self, name: &str) -> bool {
        self.matches.opt_present(name)
    }

    /// How often an option was given, by either name.
    ///
    /// ```
    /// let mut options = getopts::Options::new();
    /// options.optflagmulti("v", "verbose", "say more");
    /// assert_eq!(options.parse_os(["-vv", "--verbose"]).unwrap().opt_count("v"), 3);
    /// ```
    #[track_caller]
    pub fn opt_count(&self, name: &str) -> usize {
        self.matches.opt_count(name)
    }

    /// The position of each occurrence of an option, which is the index of its word. Words that are
    /// values count, too, unlike in the crate getopts.
    ///
    /// ```
    /// let mut options = getopts::Options::new();
    /// options.optflagmulti("v", "", "say more").optopt("o", "", "", "NAME");
    /// let matches = options.parse_os(["-v", "-o", "x", "-vv"]).unwrap();
    /// assert_eq!(matches.opt_positions("v"), [0, 3, 3]);
    /// ```
    #[track_caller]
    pub fn opt_positions(&self, name: &str) -> Vec<usize> {
        self.matches.opt_positions(name)
    }

    /// The value of an option's first occurrence.
    ///
    /// ```
    /// let mut options = getopts::Options::new();
    /// options.optopt("o", "output", "set the output file", "NAME");
    /// assert_eq!(options.parse_os(["-ofile"]).unwrap().value("output").unwrap(), "file");
    /// ```
    #[inline]
    #[track_caller]
    pub fn value(&self, name: &str) -> Option<&OsStr> {
        self.occurrences(name).next()?.1
    }

    /// The values of those occurrences of an option that have one, in command-line order.
    ///
    /// ```
    /// let mut options = getopts::Options::new();
    /// options.optmulti("L", "", "add a folder", "DIR");
    /// let matches = options.parse_os(["-La", "-L", "b"]).unwrap();
    /// assert!(matches.values("L").eq(["a", "b"]));
    /// ```
    #[inline]
    #[track_caller]
    pub fn values(&self, name: &str) -> Values<OsOccurrences<'_>> {
        Values(self.occurrences(name))
    }

    /// The positions and values of an option's occurrences, in command-line order.
    ///
    /// ```
    /// let mut options = getopts::Options::new();
    /// options.optflagopt("c", "color", "colour the output", "WHEN");
    /// let matches = options.parse_os(["in.txt", "--color"]).unwrap();
    /// assert_eq!(matches.occurrences("c").next(), Some((1, None)));
    /// ```
    #[inline]
    #[track_caller]
    pub fn occurrences(&self, name: &str) -> OsOccurrences<'_> {
        self.given_at(self.matches.place(name))
    }

    #[inline]
    fn given_at(&self, place: usize) -> OsOccurrences<'_> {
        let decoded = self.values.get(place).map(Vec::as_slice);
        OsOccurrences::of(self.matches.given_at(place), decoded)
    }

    /// The value of an option's first occurrence, or `def` if that occurrence has no value. Returns
    /// `None` if the option wasn't given.
    ///
    /// ```
    /// let mut options = getopts::Options::new();
    /// options.optflagopt("c", "color", "colour the output", "WHEN");
    /// let matches = options.parse_os(["--color"]).unwrap();
    /// assert_eq!(matches.opt_default("color", "auto").unwrap(), "auto");
    /// ```
    #[track_caller]
    pub fn opt_default<'a>(
        &'a self,
        name: &str,
        def: &'a (impl AsRef<OsStr> + ?Sized),
    ) -> Option<&'a OsStr> {
        let (_, value) = self.occurrences(name).next()?;
        Some(value.unwrap_or(def.as_ref()))
    }

    /// Parses the value of an option's first occurrence as a `T`.
    ///
    /// ```
    /// let mut options = getopts::Options::new();
    /// options.optopt("n", "", "", "N");
    /// assert_eq!(options.parse_os(["-n", "7"]).unwrap().opt_get::<u8>("n"), Ok(Some(7)));
    /// ```
    ///
    /// # Errors
    /// Fails if the value isn't UTF-8, or can't be parsed as a `T`.
    #[track_caller]
    pub fn opt_get<T: FromStr>(&self, name: &str) -> Result<Option<T>, OsGetError<T::Err>> {
        let read = |value: &OsStr| {
            value.to_str().ok_or(OsGetError::NotUtf8)?.parse().map_err(OsGetError::Invalid)
        };
        self.value(name).map(read).transpose()
    }

    /// The index in `free` of the first word after the `--` that ends the options, or `None` if
    /// there is no such word.
    ///
    /// ```
    /// let options = getopts::Options::new();
    /// assert_eq!(options.parse_os(["a", "--", "b"]).unwrap().free_trailing_start(), Some(1));
    /// ```
    pub fn free_trailing_start(&self) -> Option<usize> {
        self.matches.free_trailing_start()
    }
}

impl fmt::Debug for OsMatches {
    fn fmt(&self, f: &mut fmt::Formatter<'_>) -> fmt::Result {
        let (shown, free) = (f.debug_struct("OsMatches"), &self.free);
        self.matches.show(shown, free, |place| self.given_at(place))
    }
}

/// The text of a word that doesn't need to be encoded, such as ASCII.
#[inline]
fn plain(word: &OsStr) -> Option<&str> {
    let is_plain = |text: &&str| text.is_ascii() || plain_text(text.as_bytes()).is_some();
    word.to_str().filter(is_plain)
}

/// A word as text: itself, or encoded by marks.
pub(crate) fn text_of(word: &OsStr) -> Result<Cow<'_, str>, Fail> {
    if let Some(text) = plain(word) {
        return Ok(Cow::Borrowed(text));
    }
    let mut text = String::new();
    granted(push_text(&mut text, &bytes_of(word)?));
    Ok(Cow::Owned(text))
}

/// The word that a text encodes.
pub(crate) fn os_of(text: &str) -> OsString {
    let mut bytes = Vec::new();
    granted(push_bytes(&mut bytes, text));
    word_of(bytes)
}

/// The error at the start of this text, which is a word or the rest of a cluster, with U+FFFD in
/// place of what isn't Unicode.
pub(crate) fn shown(text: &str, mut fail: Fail) -> Fail {
    match &mut fail {
        Fail::ArgumentMissing(name)
        | Fail::UnrecognizedOption(name)
        | Fail::UnexpectedArgument(name) => {
            let mut bytes = Vec::new();
            granted(push_bytes(&mut bytes, name));
            *name = match bytes[..] {
                // The first byte of a character in a cluster isn't a word: show the character.
                [byte] if !byte.is_ascii() => {
                    let name = os_of(text.trim_start_matches('-'));
                    name.to_string_lossy().chars().take(1).collect()
                }
                _ => word_of(bytes).to_string_lossy().into_owned(),
            };
        }
        // These have declared names, which aren't encoded.
        Fail::OptionMissing(_) | Fail::OptionDuplicated(_) => {}
    }
    fail
}

/// The bytes of an argument.
///
/// # Errors
/// Fails on systems other than Unix and Windows, if the argument isn't UTF-8.
#[cfg(unix)]
pub fn bytes_of(word: &OsStr) -> Result<Cow<'_, [u8]>, Fail> {
    Ok(Cow::Borrowed(std::os::unix::ffi::OsStrExt::as_bytes(word)))
}

#[cfg(unix)]
fn word_of(bytes: Vec<u8>) -> OsString {
    std::os::unix::ffi::OsStringExt::from_vec(bytes)
}

/// The bytes of an argument. A lone surrogate is encoded as three bytes (WTF-8), which aren't valid
/// UTF-8.
#[cfg(windows)]
pub fn bytes_of(word: &OsStr) -> Result<Cow<'_, [u8]>, Fail> {
    let mut bytes = Vec::new();
    for unit in char::decode_utf16(std::os::windows::ffi::OsStrExt::encode_wide(word)) {
        match unit {
            Ok(character) => bytes.extend(character.encode_utf8(&mut [0; 4]).bytes()),
            Err(half) => {
                let half = half.unpaired_surrogate();
                bytes.extend([0xED, 0x80 | (half >> 6 & 0x3F) as u8, 0x80 | (half & 0x3F) as u8]);
            }
        }
    }
    Ok(Cow::Owned(bytes))
}

#[cfg(windows)]
fn word_of(bytes: Vec<u8>) -> OsString {
    let (mut units, mut rest) = (Vec::new(), &bytes[..]);
    while !rest.is_empty() {
        let end = std::str::from_utf8(rest).map_or_else(|error| error.valid_up_to(), str::len);
        let (text, half) = rest.split_at(end);
        units.extend(std::str::from_utf8(text).unwrap_or("").encode_utf16());
        let unit = |high: u8, low: u8| 0xD000 | u16::from(high & 0x3F) << 6 | u16::from(low & 0x3F);
        // No word is cut within a surrogate.
        rest = match half {
            [0xED, high, low, rest @ ..] => {
                units.push(unit(*high, *low));
                rest
            }
            _ => half.get(1..).unwrap_or(&[]),
        };
    }
    std::os::windows::ffi::OsStringExt::from_wide(&units)
}

/// The bytes of an argument, if it is UTF-8.
#[cfg(not(any(unix, windows)))]
pub fn bytes_of(word: &OsStr) -> Result<Cow<'_, [u8]>, Fail> {
    word.to_str().map(|text| text.as_bytes().into()).ok_or_else(|| crate::options::not_text(word))
}

#[cfg(not(any(unix, windows)))]
fn word_of(bytes: Vec<u8>) -> OsString {
    OsString::from(String::from_utf8_lossy(&bytes).into_owned())
}

#[cfg(test)]
mod tests {
    //! Words and the texts that encode them, by the rule of marks, in both directions.

    use crate::bytes::{plain_text, push_bytes, push_text};

    /// Words, each with its text.
    const ROWS: &[(&[u8], &str)] = &[
        (b"", ""),
        (b"--name=it's", "--name=it's"),
        (b"a\0b", "a\0b"),
        (b"gr\xC3\xBCn \xE2\x82\xAC\xF0\x90\x8D\x88", "grün €\u{10348}"),
        // the first and last character of each length, the characters next to the surrogates, and
        // the last one before the marks
        (b"\x7F\xC2\x80\xDF\xBF\xE0\xA0\x80\xED\x9F\xBF", "\u{7F}\u{80}\u{7FF}\u{800}\u{D7FF}"),
        (b"\xEE\x80\x80\xEF\xBF\xBF", "\u{E000}\u{FFFF}"),
        (b"\xF0\x90\x80\x80\xF4\x8F\xBD\xBF", "\u{10000}\u{10FF7F}"),
        (b"\xFF.txt", "\u{10FFFF}.txt"),
        (b"-n\x80", "-n\u{10FF80}"),
        (b"caf\xE9=x", "caf\u{10FFE9}=x"),
        // a truncated character, before another one and at the end
        (b"\xE2\x82a", "\u{10FFE2}\u{10FF82}a"),
        (b"\xE2\x82\xC3\xA9", "\u{10FFE2}\u{10FF82}é"),
        (b"a\xF0\x90\x8D", "a\u{10FFF0}\u{10FF90}\u{10FF8D}"),
        // a byte order mark
        (b"\xEF\xBB\xBF\xFF", "\u{FEFF}\u{10FFFF}"),
        // overlong forms, surrogates, and beyond the last character
        (b"\xC0\xAF", "\u{10FFC0}\u{10FFAF}"),
        (b"\xE0\x80\xAF", "\u{10FFE0}\u{10FF80}\u{10FFAF}"),
        (b"\xED\xA0\x80", "\u{10FFED}\u{10FFA0}\u{10FF80}"),
        (b"\xF4\x90\x80\x80", "\u{10FFF4}\u{10FF90}\u{10FF80}\u{10FF80}"),
        // the first and the last mark
        (b"\xF4\x8F\xBE\x80", "\u{10FFF4}\u{10FF8F}\u{10FFBE}\u{10FF80}"),
        (b"\xF4\x8F\xBF\xBF", "\u{10FFF4}\u{10FF8F}\u{10FFBF}\u{10FFBF}"),
    ];

    #[test]
    fn words_and_texts() {
        for (word, text) in ROWS {
            let (mut made, mut back) = (String::new(), Vec::new());
            push_text(&mut made, word).unwrap();
            push_bytes(&mut back, text).unwrap();
            assert_eq!((made.as_str(), back.as_slice()), (*text, *word));
            assert_eq!(plain_text(word).is_some(), *word == text.as_bytes());
        }
    }
}
