//! The result of reading words, in the form that C gets.

use crate::AllocResult;
use crate::c::{Text, text};
use crate::words::Texts;
use core::mem::take;
use core::ptr::null;
use library::alloc::Global;
use library::bytes::push_bytes;
use library::fallible::{TryCopies, TryList, Vec};
use library::proved::{Matches, Occurrences};

/// The result of reading words: empty if they couldn't be read.
#[derive(Default)]
pub struct Reading {
    pub matches: Option<Matches>,
    /// The values and the free words, each followed by a zero byte.
    texts: Vec<u8>,
    /// For each option, the values of its occurrences, with NULL for one that has none. After all
    /// options the free words, then NULL.
    lists: Vec<Text>,
    /// The index in `lists` at which the values of each option begin, and then the free words.
    starts: Vec<usize>,
}

/// An empty list of C strings: just NULL.
pub fn none() -> *const Text {
    static NONE: usize = 0;
    (&NONE as *const usize).cast()
}

/// The occurrences of an option that count: all, or the last one.
pub struct Given<'r> {
    reading: &'r Reading,
    /// The place of the option.
    pub place: usize,
    all: Occurrences<'r>,
    /// How many of all count.
    pub count: usize,
}

impl Given<'_> {
    pub fn keep_last(&mut self) {
        self.count = self.count.min(1);
    }

    /// The index, among all occurrences, of the nth one that counts.
    fn index(&self, nth: usize) -> Option<usize> {
        Some(self.all.len() - self.count + nth_of(nth, self.count)?)
    }

    pub fn value(&self, nth: usize) -> Option<Text> {
        let start = self.reading.starts.get(self.place)?;
        self.reading.lists.get(start + self.index(nth)?).copied()
    }

    pub fn position(&self, nth: usize) -> Option<usize> {
        Some(self.all.get(self.index(nth)?)?.0)
    }
}

impl Reading {
    /// Stores what the matches have of this number of options.
    pub fn lay_out(&mut self, groups: usize, of: &Texts<'_>) -> AllocResult<()> {
        let Some(matches) = &mut self.matches else { return Ok(()) };
        self.texts.try_grow_exact(of.bytes)?;
        let free = take(&mut matches.free);
        let (mut starts, mut len) = (Vec::of_capacity(Global, groups + 1)?, 0);
        for place in 0..groups {
            starts.push(len);
            len += matches.occurrences_at(place).len();
        }
        starts.push(len);
        let mut lists = Vec::filled(Global, null(), len + free.len() + 1)?;
        for place in 0..groups {
            for (nth, (_, value)) in matches.occurrences_at(place).enumerate() {
                if let Some(value) = value {
                    lists[starts[place] + nth] = push_text(&mut self.texts, value, of.marked)?;
                }
            }
        }
        for (to, word) in lists[len..].iter_mut().zip(&free) {
            *to = push_text(&mut self.texts, word, of.marked)?;
        }
        (self.lists, self.starts) = (lists, starts);
        Ok(())
    }

    /// What was given of an option, if words were read and it is declared.
    #[inline(always)]
    pub fn given(&self, name: Option<&[u8]>) -> Option<Given<'_>> {
        let matches = self.matches.as_ref()?;
        let place = matches.opt_place(text(name?)?)?;
        let all = matches.occurrences_at(place);
        Some(Given { reading: self, place, count: all.len(), all })
    }

    /// The free words, and NULL after them.
    pub fn free_words(&self) -> *const Text {
        self.starts.last().map_or(none(), |start| self.lists[*start..].as_ptr())
    }

    pub fn free_count(&self) -> usize {
        let start = self.starts.last();
        start.map_or(0, |start| self.lists.len() - 1 - start)
    }

    pub fn trailing_start(&self) -> Option<usize> {
        self.matches.as_ref()?.free_trailing_start()
    }
}

/// The index of the requested occurrence, out of `count`: `nth`, or for `GETOPTS_LAST` the last.
pub fn nth_of(nth: usize, count: usize) -> Option<usize> {
    let last = count.checked_sub(1)?;
    match nth {
        usize::MAX => Some(last),
        _ => (nth <= last).then_some(nth),
    }
}

/// Stores a text. The space was reserved: each word gives at most one text, which is no longer than
/// the word.
fn push_text(texts: &mut Vec<u8>, text: &str, marked: bool) -> AllocResult<Text> {
    let start = texts.as_mut_ptr().wrapping_add(texts.len());
    match marked {
        true => push_bytes(texts, text)?,
        false => texts.extend_from_slice(text.as_bytes()),
    }
    texts.push(0);
    Ok(start)
}
