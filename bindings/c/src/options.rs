//! Options, and what was read last.

use crate::c::{Row, Text, Words, text};
use crate::reading::{Given, Reading};
use crate::table::{self, MULTI, REPEAT, REQ, STRICT, Table};
use crate::words::ask;
use crate::{AllocResult, BAD, Error, NO_MEMORY, OK, Status};
use library::alloc::{AllocError, Global};
use library::bytes::push_bytes;
use library::fallible::{String, TryList, TryText, Vec};
use library::proved::{Fail, Matches, Occur, Options, Reader};

/// A `struct getopts`.
pub struct Getopts {
    // Dropped first, because its reader borrows the options.
    pub last: Last,
    pub declared: Declared,
}

/// What `getopts_new` declares. It never changes.
pub struct Declared {
    pub options: Options,
    table: Table,
    modes: u32,
}

/// What was read last.
pub struct Last {
    pub status: Status,
    /// What `getopts_message` returns: a constant below, what is wrong with the table, or one of
    /// `texts`.
    pub message: Text,
    /// The option's name in the message, or `NOTHING`.
    pub name: Text,
    /// The message about words that were rejected and the name in it, each followed by a zero byte.
    texts: Vec<u8>,
    pub reading: Reading,
    /// Reads in loops. It is made when a loop first needs it.
    pub reader: Option<Reader<'static>>,
}

pub const NOTHING: &str = "\0";
const NULL_WORD: &str = "a word is NULL\0";
pub const OUT_OF_MEMORY: &str = "Out of memory\0";

impl Getopts {
    pub fn new<'c>(
        rows: Option<impl Iterator<Item = Row<&'c [u8]>> + Clone>,
        modes: u32,
    ) -> AllocResult<Getopts> {
        let mut options = Options::new(Global);
        let table = table::declare(&mut options, rows, modes)?;
        let (status, message) = match &table.wrong {
            Some(wrong) => (BAD, wrong.as_ptr()),
            None => (OK, NOTHING.as_ptr()),
        };
        let (name, texts, reading) = (NOTHING.as_ptr(), Vec::new(), Reading::default());
        let last = Last { status, message, name, texts, reading, reader: None };
        Ok(Getopts { last, declared: Declared { options, table, modes } })
    }

    /// What was given of an option, if words were read and it is declared.
    #[inline(always)]
    pub fn given(&self, name: Option<&[u8]>) -> Option<Given<'_>> {
        let mut given = self.last.reading.given(name)?;
        let Declared { table, modes, .. } = &self.declared;
        if modes & REPEAT != 0 && table.kinds[given.place] < MULTI {
            given.keep_last();
        }
        Some(given)
    }
}

impl Last {
    /// Reads words, and stores what was read, or why nothing was. Returns the status.
    pub fn read(&mut self, declared: &Declared, words: Option<Words<'_>>) -> Status {
        let mut reading = Reading::default();
        let read = declared.read_into(&mut reading, words);
        let status = self.report(read.as_ref().err());
        if status != NO_MEMORY && status != BAD {
            self.reading = reading;
        }
        status
    }

    /// Stores the status and the message of an error, or that there is none. Returns the status.
    pub fn report(&mut self, error: Option<&Error>) -> Status {
        (self.message, self.name) = (NOTHING.as_ptr(), NOTHING.as_ptr());
        self.status = error.map_or(OK, Error::status);
        if let Some(error) = error {
            self.say(error);
        }
        self.status
    }

    #[cold]
    fn say(&mut self, error: &Error) {
        self.message = match error {
            Error::Bad(message) => *message,
            Error::Fail(fail) => match texts_of(fail) {
                Ok((texts, name)) => {
                    self.texts = texts;
                    self.name = self.texts[name..].as_ptr();
                    self.texts.as_ptr()
                }
                Err(AllocError) => {
                    self.status = NO_MEMORY;
                    OUT_OF_MEMORY.as_ptr()
                }
            },
        };
    }
}

/// The message about rejected words and, from the index on, the name in it, each followed by a zero
/// byte.
fn texts_of(fail: &Fail) -> AllocResult<(Vec<u8>, usize)> {
    if let Fail::OutOfMemory = fail {
        return Err(AllocError);
    }
    let ((before, name, after), mut texts) = (fail.parts(), Vec::empty(Global));
    for part in [before, name, after, "\0"] {
        push_bytes(&mut texts, part)?;
    }
    let start = texts.len();
    push_bytes(&mut texts, name)?;
    texts.try_push(0)?;
    Ok((texts, start))
}

impl Declared {
    /// Whether an option of the table, if it is valid, has this name.
    pub fn declares(&self, name: Option<&[u8]>) -> bool {
        let Some(name) = name.and_then(text).filter(|name| !name.is_empty()) else { return false };
        let mut groups = (0..self.table.rows).filter_map(|place| self.options.get(place));
        groups.any(|group| group.short_name == name || group.long_name == name)
    }

    /// Whether names have to be declared, and this one isn't.
    #[cold]
    pub fn misses(&self, name: Option<&[u8]>) -> bool {
        self.modes & STRICT != 0 && self.table.wrong.is_none() && !self.declares(name)
    }

    /// The words, if none is NULL and the table is valid.
    pub fn valid<'c>(&self, words: Option<Words<'c>>) -> Result<Words<'c>, Error> {
        match &self.table.wrong {
            Some(wrong) => Err(Error::Bad(wrong.as_ptr())),
            None => words.ok_or(Error::Bad(NULL_WORD.as_ptr())),
        }
    }

    /// Reads words into an empty reading. If a word can't be read, nothing was read; if an option
    /// is missing or was given too often, everything was.
    fn read_into(&self, reading: &mut Reading, words: Option<Words<'_>>) -> Result<(), Error> {
        Ok(ask(self.valid(words)?, |texts| {
            let matches = self.options.parse_ignoring_counts(Global, texts.words)?;
            let error = self.count_error(reading.matches.insert(matches))?;
            reading.lay_out(self.table.rows, &texts)?;
            error.map_or(Ok(()), Err)
        })?)
    }

    /// The error of the first option, in order of declaration, that is missing or was given too
    /// often. The library doesn't know which options must be given at least once.
    fn count_error(&self, matches: &Matches) -> AllocResult<Option<Fail>> {
        let error = matches.check_counts(Global).err();
        let name = error.as_ref().map(|fail| fail.parts().1);
        let first = name.map_or(usize::MAX, |name| matches.opt_place(name).unwrap_or(0));
        let mut kinds = self.table.kinds.iter().enumerate().take(first);
        let missing =
            kinds.find(|(at, kind)| *kind & REQ != 0 && matches.occurrences_at(*at).is_empty());
        let Some((place, _)) = missing else { return Ok(error) };
        let Some(group) = self.options.get(place) else { return Ok(error) };
        let main = if group.long_name.is_empty() { group.short_name } else { group.long_name };
        Ok(Some(Fail::OptionMissing(String::copy_of(Global, main)?)))
    }

    /// The canonical line, with a zero byte after each word, and the number of words.
    pub fn canonical(&self, words: Option<Words<'_>>) -> Result<Option<(Vec<u8>, usize)>, Error> {
        let line = ask(self.valid(words)?, |texts| {
            if !self.table.kinds.is_empty() {
                let matches = self.options.parse_ignoring_counts(Global, texts.words)?;
                self.count_error(&matches)?.map_or(Ok(()), Err)?;
            }
            self.options.canonical_words(Global, texts.words)
        })?;
        let Some(line) = line else {
            return Ok(None);
        };
        let mut bytes = Vec::empty(Global);
        for word in &line {
            push_bytes(&mut bytes, word)?;
            push_bytes(&mut bytes, "\0")?;
        }
        Ok(Some((bytes, line.len())))
    }

    /// A usage text that a call makes for `start`, followed by a zero byte.
    pub fn usage(
        &self,
        start: Option<&[u8]>,
        make: impl FnOnce(&Declared, &str) -> AllocResult<String>,
    ) -> Option<String> {
        let start = text(start.filter(|_| self.table.wrong.is_none())?)?;
        let mut text = make(self, start).ok()?;
        text.try_push('\0').ok()?;
        Some(text)
    }

    /// The usage line of a program. It shows options that must be given at least once as those that
    /// must be given once.
    pub fn short_usage(&self, program: &str) -> AllocResult<String> {
        let mut shown = Options::new(Global);
        let groups = (0..self.options.len()).filter_map(|place| self.options.get(place));
        for (place, group) in groups.enumerate() {
            let required = self.table.kinds.get(place).map_or(false, |kind| kind & REQ != 0);
            let occur = if required { Occur::Req } else { group.occur };
            shown.opt(group.short_name, group.long_name, "", group.hint, group.hasarg, occur)?;
        }
        shown.short_usage(Global, program)
    }
}
