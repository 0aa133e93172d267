//! Iterators over a command line, over the occurrences of an option, and over their values.

use crate::alloc::Global;
use crate::fail::granted;
use crate::os::{os_of, shown, text_of};
use crate::proved::scan::FIRST_ROOM;
use crate::proved::{self, Unread};
use crate::{Fail, Given};
use std::borrow::Cow;
use std::ffi::{OsStr, OsString};
use std::fmt;
use std::iter::FusedIterator;
use std::slice;

/// Iterates over the options and positional arguments of a command line. [`Options::read`] returns
/// it.
///
/// Its items are the options and positional arguments in command-line order or, if a word can't be
/// read, those before the error, and last the error. Words are read when an item is asked for, so a
/// program may stop anywhere, and use the [`words`](Self::words) that are left in another way.
///
/// [`Options::read`]: crate::Options::read
///
/// ```
/// use getopts::Given;
///
/// let mut options = getopts::Options::new();
/// options.optflag("v", "verbose", "say more").optopt("o", "", "write to NAME", "NAME");
/// let words = ["-vofile", "in.txt", "--", "-x"];
/// for given in options.read(&words) {
///     match given.unwrap() {
///         Given::Option { long: "verbose", .. } => {}
///         Given::Option { short: "o", value, .. } => assert_eq!(value, Some("file")),
///         Given::Option { short, .. } => unreachable!("-{short} has no arm here"),
///         Given::Free(word) => assert!(["in.txt", "-x"].contains(&word)),
///     }
/// }
/// ```
#[must_use = "iterators are lazy and do nothing unless consumed"]
pub struct Reader<'o, 'w, S> {
    options: &'o proved::Options,
    proved: proved::Reader<'o>,
    unread: Unread<'w, S>,
    /// Whether a word couldn't be read.
    failed: bool,
}

impl<'o, 'w, S: AsRef<str>> Reader<'o, 'w, S> {
    pub(crate) fn of(options: &'o proved::Options, words: &'w [S]) -> Reader<'o, 'w, S> {
        let proved = granted(options.reader(Global));
        Reader { options, proved, unread: Unread::new(words), failed: false }
    }

    /// The words that weren't read yet, as they were given.
    ///
    /// A word that combines options counts as read when its first option is. An error takes no
    /// word: after it, the word that couldn't be read is the first of these, unless an option of
    /// this word was read before.
    ///
    /// ```
    /// let mut options = getopts::Options::new();
    /// options.optflag("v", "", "say more");
    /// let mut reader = options.read(&["-v", "run", "--", "-x"]);
    /// assert_eq!(reader.nth(1), Some(Ok(getopts::Given::Free("run"))));
    /// assert_eq!(reader.words(), ["--", "-x"]);
    /// ```
    #[inline]
    pub fn words(&self) -> &'w [S] {
        self.unread.words
    }

    /// The positional argument that `next` returned last and those after it, such as a command and
    /// its arguments, or `None` while options may follow. At the end, there are none: `Some(&[])`.
    ///
    /// ```
    /// use getopts::{Given, Options, ParsingStyle};
    ///
    /// let mut options = Options::new();
    /// options.optflag("v", "", "say more").parsing_style(ParsingStyle::StopAtFirstFree);
    /// let mut reader = options.read(&["-v", "run", "-x"]);
    /// assert_eq!((reader.nth(1), reader.words()), (Some(Ok(Given::Free("run"))), &["-x"][..]));
    /// assert_eq!(reader.free_words().unwrap(), ["run", "-x"]);
    /// ```
    ///
    /// Without `StopAtFirstFree`, it would be `None` here, because options may follow `run`.
    #[inline]
    pub fn free_words(&self) -> Option<&'w [S]> {
        self.unread.free_words
    }

    /// Takes the next word as it was given, if the closure returns true for it. At the end, and
    /// between the options of one word, returns `None` without calling the closure.
    ///
    /// After an error, the next word is the one that couldn't be read, unless an option of this
    /// word was read before. A program that passes such words on takes it, and goes on with
    /// `options.read(reader.words())`.
    ///
    /// ```
    /// let mut options = getopts::Options::new();
    /// options.optopt("x", "exec", "run PROGRAM with the words up to `;`", "PROGRAM");
    /// let mut reader = options.read(&["-x", "rm", "-f", ";", "in.txt"]);
    /// assert!(reader.next().unwrap().is_ok());
    /// assert_eq!(reader.next_word_if(|word| word != ";"), Some("-f"));
    /// assert_eq!(reader.next_word_if(|word| word != ";"), None);
    /// assert_eq!(reader.words(), [";", "in.txt"]);
    /// ```
    #[inline]
    pub fn next_word_if(&mut self, take: impl FnOnce(&str) -> bool) -> Option<&'w str> {
        let (word, others) = self.unread.words.split_first()?;
        let word = word.as_ref();
        if !self.unread.names.is_empty() || !take(word) {
            return None;
        }
        self.unread.words = others;
        Some(word)
    }
}

impl<'o, 'w, S: AsRef<str>> Iterator for Reader<'o, 'w, S> {
    type Item = Result<Given<'o, &'w str>, Fail>;

    #[inline]
    fn next(&mut self) -> Option<Self::Item> {
        if self.failed {
            return None;
        }
        match self.proved.next(Global, &mut self.unread) {
            Ok(given) => given.map(|given| Ok(Given::of(self.options, given, |text| text))),
            Err(fail) => {
                self.failed = true;
                Some(Err(Fail::of(fail)))
            }
        }
    }
}

impl<S: AsRef<str>> FusedIterator for Reader<'_, '_, S> {}

impl<S: fmt::Debug> fmt::Debug for Reader<'_, '_, S> {
    fn fmt(&self, f: &mut fmt::Formatter<'_>) -> fmt::Result {
        let Unread { names, words, .. } = &self.unread;
        f.debug_struct("Reader").field("names", names).field("words", words).finish_non_exhaustive()
    }
}

/// Iterates over the options and positional arguments of a command line, which needn't be UTF-8.
/// [`Options::read_os`] returns it. It is like a [`Reader`], with other items.
///
/// Values and positional arguments are borrowed from the words, except a value that is part of a
/// word that isn't UTF-8, as in `-oNAME`, which is copied.
///
/// [`Options::read_os`]: crate::Options::read_os
///
/// ```
/// use getopts::Given;
/// use std::ffi::OsString;
/// use std::path::PathBuf;
///
/// let mut options = getopts::Options::new();
/// options.optopt("o", "", "write to NAME", "NAME");
/// let words = ["-ofile", "in.txt", "--", "-x"].map(OsString::from);
/// let (mut output, mut inputs) = (None, Vec::new());
/// for given in options.read_os(&words) {
///     match given.unwrap() {
///         Given::Option { short: "o", value, .. } => output = value,
///         Given::Option { short, .. } => unreachable!("-{short} has no arm here"),
///         Given::Free(name) => inputs.push(PathBuf::from(&name)),
///     }
/// }
/// assert_eq!(output.unwrap().to_str(), Some("file"));
/// assert_eq!(inputs, ["in.txt", "-x"].map(PathBuf::from));
/// ```
#[must_use = "iterators are lazy and do nothing unless consumed"]
pub struct OsReader<'o, 'w, S> {
    options: &'o proved::Options,
    proved: proved::Reader<'o>,
    words: &'w [S],
    /// The texts of the first words, as far as they were needed.
    texts: Vec<Cow<'w, str>>,
    /// How many words were read, and how many bytes of names are left in the last one's text.
    read: usize,
    left: usize,
    /// What `free_words` returns.
    free_words: Option<&'w [S]>,
    /// Whether a word couldn't be read.
    failed: bool,
}

impl<'o, 'w, S: AsRef<OsStr>> OsReader<'o, 'w, S> {
    pub(crate) fn of(options: &'o proved::Options, words: &'w [S]) -> OsReader<'o, 'w, S> {
        let proved = granted(options.reader(Global));
        let texts = Vec::with_capacity(words.len().min(FIRST_ROOM));
        let (free_words, failed) = (None, false);
        OsReader { options, proved, words, texts, read: 0, left: 0, free_words, failed }
    }

    /// The words that weren't read yet, as [`Reader::words`] returns them.
    ///
    /// ```
    /// let mut options = getopts::Options::new();
    /// options.optflag("v", "", "say more");
    /// let mut reader = options.read_os(&["-v", "run", "--", "-x"]);
    /// assert!(reader.nth(1).unwrap().is_ok());
    /// assert_eq!(reader.words(), ["--", "-x"]);
    /// ```
    #[inline]
    pub fn words(&self) -> &'w [S] {
        &self.words[self.read..]
    }

    /// The positional argument that `next` returned last and those after it, or `None` while
    /// options may follow, as [`Reader::free_words`] returns them.
    ///
    /// ```
    /// let options = getopts::Options::new();
    /// let mut reader = options.read_os(&["--", "a", "b"]);
    /// assert!(reader.nth(1).unwrap().is_ok());
    /// assert_eq!(reader.free_words().unwrap(), ["b"]);
    /// ```
    #[inline]
    pub fn free_words(&self) -> Option<&'w [S]> {
        self.free_words
    }

    /// Takes the next word as it was given, if the closure returns true for it, as
    /// [`Reader::next_word_if`] does.
    ///
    /// ```
    /// let mut options = getopts::Options::new();
    /// options.optopt("x", "exec", "run PROGRAM with the words up to `;`", "PROGRAM");
    /// let mut reader = options.read_os(&["-x", "rm", "-f", ";", "in.txt"]);
    /// assert!(reader.next().unwrap().is_ok());
    /// assert_eq!(reader.next_word_if(|word| word != ";").unwrap(), "-f");
    /// assert_eq!(reader.next_word_if(|word| word != ";"), None);
    /// ```
    #[inline]
    pub fn next_word_if(&mut self, take: impl FnOnce(&OsStr) -> bool) -> Option<&'w OsStr> {
        let word = self.words().first()?.as_ref();
        if self.left > 0 || !take(word) {
            return None;
        }
        self.read += 1;
        Some(word)
    }

    /// Reads what is next from the texts of two words, because no item takes more.
    fn read(&mut self) -> Result<Option<Given<'o, Cow<'w, OsStr>>>, Fail> {
        let end = self.words.len().min(self.read + 2);
        while self.texts.len() < end {
            self.texts.push(text_of(self.words[self.texts.len()].as_ref())?);
        }
        let (words, names) = (&self.texts[self.read..end], self.end(self.left));
        let free_words = self.free_words.map(|_| &[][..]);
        let mut unread = Unread { words, names, free_words };
        let given = self.proved.next(Global, &mut unread).map_err(|fail| {
            let text = if names.is_empty() { &words[0] } else { names };
            shown(text, Fail::of(fail))
        })?;
        let (read, left) = (words.len() - unread.words.len(), unread.names.len());
        let given = given.map(|given| Given::of(self.options, given, str::len));
        self.free_words = unread.free_words.map(|free| &self.words[end - free.len()..]);
        (self.read, self.left) = (self.read + read, left);
        Ok(given.map(|given| given.map(|len| self.value(len))))
    }

    /// The word that was read last or, if this is longer than the value, its end.
    fn value(&self, len: usize) -> Cow<'w, OsStr> {
        match &self.texts[self.read - 1] {
            Cow::Borrowed(text) => Cow::Borrowed(OsStr::new(&text[text.len() - len..])),
            Cow::Owned(text) if text.len() == len => {
                Cow::Borrowed(self.words[self.read - 1].as_ref())
            }
            Cow::Owned(_) => Cow::Owned(os_of(self.end(len))),
        }
    }
}

impl<S> OsReader<'_, '_, S> {
    /// The end of the text of the word that was read last.
    fn end(&self, len: usize) -> &str {
        // A word that was taken as it was given may have no text.
        let text = self.texts.get(self.read.wrapping_sub(1)).map_or("", |text| text);
        &text[text.len() - len..]
    }
}

impl<'o, 'w, S: AsRef<OsStr>> Iterator for OsReader<'o, 'w, S> {
    type Item = Result<Given<'o, Cow<'w, OsStr>>, Fail>;

    #[inline]
    fn next(&mut self) -> Option<Self::Item> {
        if self.failed {
            return None;
        }
        let item = self.read().transpose()?;
        self.failed = item.is_err();
        Some(item)
    }
}

impl<S: AsRef<OsStr>> FusedIterator for OsReader<'_, '_, S> {}

impl<S: fmt::Debug> fmt::Debug for OsReader<'_, '_, S> {
    fn fmt(&self, f: &mut fmt::Formatter<'_>) -> fmt::Result {
        let (names, words) = (os_of(self.end(self.left)), &self.words[self.read..]);
        let mut shown = f.debug_struct("OsReader");
        shown.field("names", &names).field("words", &words).finish_non_exhaustive()
    }
}

/// Iterates over the positions and values of an option's occurrences. [`Matches::occurrences`]
/// returns it.
///
/// [`Matches::occurrences`]: crate::Matches::occurrences
///
/// ```
/// let mut options = getopts::Options::new();
/// options.optmulti("L", "", "add a folder", "DIR");
/// let matches = options.parse(["-La", "-Lb"]).unwrap();
/// let folders: getopts::iter::Occurrences = matches.occurrences("L");
/// assert_eq!(folders.len(), 2);
/// assert_eq!(folders.rev().next(), Some((1, Some("b"))));
/// ```
#[must_use = "iterators are lazy and do nothing unless consumed"]
pub struct Occurrences<'m>(pub(crate) proved::Occurrences<'m>);

impl Clone for Occurrences<'_> {
    #[inline]
    fn clone(&self) -> Self {
        Occurrences(self.0.again())
    }
}

impl<'m> Iterator for Occurrences<'m> {
    type Item = (usize, Option<&'m str>);

    #[inline]
    fn next(&mut self) -> Option<Self::Item> {
        self.0.next()
    }

    #[inline]
    fn size_hint(&self) -> (usize, Option<usize>) {
        (self.0.len(), Some(self.0.len()))
    }
}

impl DoubleEndedIterator for Occurrences<'_> {
    #[inline]
    fn next_back(&mut self) -> Option<Self::Item> {
        self.0.next_back()
    }
}

impl ExactSizeIterator for Occurrences<'_> {}
impl FusedIterator for Occurrences<'_> {}

impl fmt::Debug for Occurrences<'_> {
    fn fmt(&self, f: &mut fmt::Formatter<'_>) -> fmt::Result {
        f.debug_list().entries(self.clone()).finish()
    }
}

/// Iterates over the positions and values of an option's occurrences. [`OsMatches::occurrences`]
/// returns it.
///
/// [`OsMatches::occurrences`]: crate::OsMatches::occurrences
///
/// ```
/// let mut options = getopts::Options::new();
/// options.optmulti("L", "", "add a folder", "DIR");
/// let matches = options.parse_os(["-La", "-Lb"]).unwrap();
/// let folders: getopts::iter::OsOccurrences = matches.occurrences("L");
/// assert_eq!(folders.rev().next(), Some((1, Some("b".as_ref()))));
/// ```
#[must_use = "iterators are lazy and do nothing unless consumed"]
#[derive(Clone)]
pub struct OsOccurrences<'m> {
    texts: Occurrences<'m>,
    /// The values, decoded, if a word wasn't text.
    decoded: Option<slice::Iter<'m, Option<OsString>>>,
}

impl<'m> OsOccurrences<'m> {
    #[inline]
    pub(crate) fn of(texts: Occurrences<'m>, decoded: Option<&'m [Option<OsString>]>) -> Self {
        OsOccurrences { texts, decoded: decoded.map(<[_]>::iter) }
    }
}

impl<'m> Iterator for OsOccurrences<'m> {
    type Item = (usize, Option<&'m OsStr>);

    #[inline]
    fn next(&mut self) -> Option<Self::Item> {
        let (position, text) = self.texts.next()?;
        let value = match &mut self.decoded {
            Some(values) => values.next()?.as_deref(),
            None => text.map(OsStr::new),
        };
        Some((position, value))
    }

    #[inline]
    fn size_hint(&self) -> (usize, Option<usize>) {
        self.texts.size_hint()
    }
}

impl DoubleEndedIterator for OsOccurrences<'_> {
    #[inline]
    fn next_back(&mut self) -> Option<Self::Item> {
        let (position, text) = self.texts.next_back()?;
        let value = match &mut self.decoded {
            Some(values) => values.next_back()?.as_deref(),
            None => text.map(OsStr::new),
        };
        Some((position, value))
    }
}

impl ExactSizeIterator for OsOccurrences<'_> {}
impl FusedIterator for OsOccurrences<'_> {}

impl fmt::Debug for OsOccurrences<'_> {
    fn fmt(&self, f: &mut fmt::Formatter<'_>) -> fmt::Result {
        f.debug_list().entries(self.clone()).finish()
    }
}

/// Iterates over the values of an option's occurrences. [`Matches::values`] returns a
/// `Values<Occurrences>`, and [`OsMatches::values`] a `Values<OsOccurrences>`.
///
/// [`Matches::values`]: crate::Matches::values
/// [`OsMatches::values`]: crate::OsMatches::values
///
/// ```
/// let mut options = getopts::Options::new();
/// options.optmulti("o", "output", "set the output file; the last one counts", "NAME");
/// let matches = options.parse(["-oa", "-ob"]).unwrap();
/// assert_eq!(matches.values("output").next_back(), Some("b"));
/// ```
#[must_use = "iterators are lazy and do nothing unless consumed"]
#[derive(Clone)]
pub struct Values<I>(pub(crate) I);

impl<'m> Iterator for Values<Occurrences<'m>> {
    type Item = &'m str;

    #[inline]
    fn next(&mut self) -> Option<&'m str> {
        self.0.0.take_first_value()
    }

    #[inline]
    fn size_hint(&self) -> (usize, Option<usize>) {
        (0, Some(self.0.len()))
    }
}

impl DoubleEndedIterator for Values<Occurrences<'_>> {
    #[inline]
    fn next_back(&mut self) -> Option<Self::Item> {
        self.0.0.take_last_value()
    }
}

impl FusedIterator for Values<Occurrences<'_>> {}

impl<'m> Iterator for Values<OsOccurrences<'m>> {
    type Item = &'m OsStr;

    #[inline]
    fn next(&mut self) -> Option<&'m OsStr> {
        self.0.find_map(|(_, value)| value)
    }

    #[inline]
    fn size_hint(&self) -> (usize, Option<usize>) {
        (0, Some(self.0.len()))
    }
}

impl DoubleEndedIterator for Values<OsOccurrences<'_>> {
    #[inline]
    fn next_back(&mut self) -> Option<Self::Item> {
        self.0.by_ref().rev().find_map(|(_, value)| value)
    }
}

impl FusedIterator for Values<OsOccurrences<'_>> {}

impl<I: Clone> fmt::Debug for Values<I>
where
    Values<I>: Iterator,
    <Values<I> as Iterator>::Item: fmt::Debug,
{
    fn fmt(&self, f: &mut fmt::Formatter<'_>) -> fmt::Result {
        f.debug_list().entries(self.clone()).finish()
    }
}
