//! Words of C as texts: those that aren't valid text are encoded by marks.

use crate::c::{Words, text};
use library::alloc::Global;
use library::bytes::push_text;
use library::fallible::{String, TryCopies, TryList, TryText, Vec};
use library::proved::Fail;

/// Up to this many words, no list of their texts is allocated.
const FEW: usize = 16;

/// Words as texts.
pub struct Texts<'t> {
    pub words: &'t [&'t str],
    /// How many bytes the words have, each with a zero byte after it.
    pub bytes: usize,
    /// Whether any of them is encoded by marks.
    pub marked: bool,
}

/// Calls a function with words as texts.
pub fn ask<T>(
    words: Words<'_>,
    call: impl FnOnce(Texts<'_>) -> Result<T, Fail>,
) -> Result<T, Fail> {
    let (mut few, mut many) = ([""; FEW], None);
    let texts = match words.len() {
        len @ 0..=FEW => &mut few[..len],
        len => &mut many.insert(Vec::filled(Global, "", len)?)[..],
    };
    let (mut bytes, mut marked) = (0usize, false);
    for (to, word) in texts.iter_mut().zip(words.iter()) {
        bytes = bytes.saturating_add(word.len()).saturating_add(1);
        match text(word) {
            Some(plain) => *to = plain,
            None => marked = true,
        }
    }
    let marks = if marked { marked_words(words)? } else { Vec::new() };
    for (nth, word) in &marks {
        texts[*nth] = word;
    }
    call(Texts { words: texts, bytes, marked })
}

/// The words that aren't valid text, encoded by marks, each with its index.
#[cold]
fn marked_words(words: Words<'_>) -> Result<Vec<(usize, String)>, Fail> {
    let mut marked = Vec::empty(Global);
    for (nth, word) in words.iter().enumerate().filter(|(_, word)| text(word).is_none()) {
        let mut encoded = String::empty(Global);
        push_text(&mut encoded, word)?;
        marked.try_push((nth, encoded))?;
    }
    Ok(marked)
}
