//! A loop of the caller's over a command line, one option or free word at a time.

use crate::AllocResult;
use crate::c::{self, Text, text};
use crate::options::{Declared, Last};
use core::ffi::c_int;
use core::ptr::null;
use library::alloc::Global;
use library::bytes::push_text;
use library::fallible::String;
use library::proved::{Fail, Given, Unread};

/// Stands for the row of a free word: `GETOPTS_FREE_WORD`.
const FREE_WORD: c_int = c_int::MAX;

/// Bytes as texts, all of them encoded by marks.
#[cold]
fn marked(bytes: [&[u8]; 3]) -> AllocResult<[String; 3]> {
    let mut texts = [String::new(), String::new(), String::new()];
    for (text, bytes) in texts.iter_mut().zip(bytes) {
        push_text(text, bytes)?;
    }
    Ok(texts)
}

/// The number of bytes for which a text with marks stands.
#[cold]
fn len_of(text: &str) -> usize {
    text.chars().map(|char| if char < '\u{10FF80}' { char.len_utf8() } else { 1 }).sum()
}

impl Last {
    /// Reads what is next, and moves `unread` past it. Returns its row, or -1 at the end, and its
    /// value. `bytes` are the names that are left, and the next `words`: at most two, because no
    /// item takes more.
    pub fn next(
        &mut self,
        declared: &'static Declared,
        unread: &mut c::Unread,
        bytes: [&[u8]; 3],
        words: usize,
    ) -> Result<(c_int, Text), Fail> {
        let encoded;
        let texts = match bytes.map(text) {
            [Some(names), Some(first), Some(second)] => [names, first, second],
            _ => {
                encoded = marked(bytes)?;
                [&*encoded[0], &*encoded[1], &*encoded[2]]
            }
        };
        // The names that are left are read first, even if the program ended the options.
        let free_words = texts[0].is_empty() && !unread.free_words.is_null();
        let mut left = Unread {
            words: &texts[1..][..words],
            names: texts[0],
            free_words: free_words.then_some(&[]),
        };
        let reader = match &mut self.reader {
            Some(reader) => reader,
            reader => reader.insert(declared.options.reader(Global)?),
        };
        let given = reader.next(Global, &mut left)?;
        let taken = words - left.words.len();
        // A free word, a value and the names that are left end where the last word that was taken
        // ends or, if none was, the names.
        let (last, plain) = (bytes[taken], texts[taken].len() == bytes[taken].len());
        let end = |text: &str| {
            last[last.len() - if plain { text.len() } else { len_of(text) }..].as_ptr()
        };
        if let Some(free_words) = left.free_words {
            unread.free_words = unread.words.wrapping_add(words - free_words.len());
        }
        unread.count -= taken as c_int;
        unread.words = unread.words.wrapping_add(taken);
        unread.names = if left.names.is_empty() { null() } else { end(left.names) };
        Ok(match given {
            Some(Given::Option { place, value }) => (place as c_int, value.map_or(null(), end)),
            Some(Given::Free(word)) => (FREE_WORD, end(word)),
            None => (-1, null()),
        })
    }
}
