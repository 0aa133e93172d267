//! Tables of options: declares their rows, or says what is wrong with them.

use crate::AllocResult;
use crate::c::{Row, text};
use library::alloc::{AllocError, Global};
use library::fallible::{TryCopies, TryList, Vec};
use library::proved::{HasArg, Occur, Options, ParsingStyle, names_lawful};

/// The modes, which may be added.
const STOP: u32 = 16;
const LONG_ONLY: u32 = 32;
pub const REPEAT: u32 = 64;
pub const STRICT: u32 = 128;

/// The kinds of required and of repeatable options.
pub const REQ: u32 = 4;
pub const MULTI: u32 = 8;

/// The most bytes that a message shows of a name that is too long.
const SHOWN: usize = 40;

const TEXTS: [&[u8]; 4] = [b"short name", b"long name", b"hint", b"description"];

/// What is wrong, followed by a zero byte; `None` if nothing is.
type Wrong = Option<Vec<u8>>;

/// What is known of a table besides its options.
pub struct Table {
    /// How many rows were declared.
    pub rows: usize,
    /// The kind of each row, if an option has a kind that the library doesn't know: it may be
    /// repeated, but is required, or its last occurrence counts. Otherwise empty.
    pub kinds: Vec<u32>,
    pub wrong: Wrong,
}

/// Declares the rows of a table.
pub fn declare<'c>(
    options: &mut Options,
    rows: Option<impl Iterator<Item = Row<&'c [u8]>> + Clone>,
    modes: u32,
) -> AllocResult<Table> {
    let wrong_table = |wrong| Table { rows: 0, kinds: Vec::new(), wrong };
    let Some(rows) = rows else { return Ok(wrong_table(message_of(&[b"the table is NULL"])?)) };
    let (mut names, mut may_repeat) = (Names { shorts: 0, longs: [0; 64] }, false);
    let (mut has_own_kinds, mut wrong) = (modes & REPEAT != 0, None);
    for row in rows.clone() {
        has_own_kinds |= row.kind >= REQ + MULTI;
        may_repeat |= names.add(row.texts[0], row.texts[1]);
        if !declare_row(options, row, modes)? {
            wrong = wrong_row(options.len(), row)?;
            break;
        }
    }
    if may_repeat {
        wrong = repeated_name(options)?.or(wrong);
    }
    if wrong.is_some() {
        return Ok(wrong_table(wrong));
    }
    if modes & !(STOP | LONG_ONLY | REPEAT | STRICT) != 0 {
        return Ok(wrong_table(message_of(&[b"invalid modes ", &digits(modes as usize)?, MODES])?));
    }
    if modes & STOP != 0 {
        options.parsing_style(ParsingStyle::StopAtFirstFree);
    }
    options.long_only(modes & LONG_ONLY != 0);
    let mut kinds = Vec::empty(Global);
    if has_own_kinds {
        for row in rows {
            kinds.try_push(row.kind)?;
        }
    }
    Ok(Table { rows: options.len(), kinds, wrong })
}

/// The names of rows: a bit for each, at a hash of the name.
struct Names {
    shorts: u64,
    longs: [u64; 64],
}

impl Names {
    /// Adds the names of a row. Returns whether one of them may have been added before.
    #[inline(always)]
    fn add(&mut self, short: &[u8], long: &[u8]) -> bool {
        let short = short.first().map_or(0, |byte| 1 << (byte % 64));
        let repeats = self.shorts & short != 0;
        self.shorts |= short;
        let [first, .., last] = long else { return repeats };
        let sample = [*first, long[long.len() - 2], *last, long.len() as u8];
        let hash = u32::from_le_bytes(sample).wrapping_mul(0x9e37_79b1) >> 20;
        let (longs, long) = (&mut self.longs[hash as usize / 64], 1 << (hash % 64));
        let found = *longs & long != 0;
        *longs |= long;
        found | repeats
    }
}

/// The two parts of a kind, if it is valid.
fn kind_of(kind: u32) -> Option<(HasArg, Occur)> {
    const HASARGS: [HasArg; 3] = [HasArg::No, HasArg::Yes, HasArg::Maybe];
    const OCCURS: [Occur; 4] = [Occur::Optional, Occur::Req, Occur::Multi, Occur::Multi];
    Some((*HASARGS.get((kind % REQ) as usize)?, *OCCURS.get((kind / REQ) as usize)?))
}

/// Declares a row if it is valid by itself, and returns whether it is.
fn declare_row(options: &mut Options, row: Row<&[u8]>, modes: u32) -> AllocResult<bool> {
    let [short, long, hint, desc] = row.texts;
    let (Some(short), Some(long), Some(hint), Some(desc), Some((hasarg, occur))) =
        (text(short), text(long), text(hint), text(desc), kind_of(row.kind))
    else {
        return Ok(false);
    };
    if !names_lawful(short, long)
        || short == "-"
        || long.starts_with('-')
        || !hint.is_empty() && hasarg == HasArg::No
    {
        return Ok(false);
    }
    let occur = if modes & REPEAT != 0 { Occur::Multi } else { occur };
    options.add_group(short, long, desc, hint, hasarg, occur).map(|()| true)
}

/// What to write instead of invalid modes.
const MODES: &[u8] =
    b": combine GETOPTS_STOP, LONG_ONLY, REPEAT and STRICT, or write GETOPTS_ORDINARY";

/// What to write instead of an invalid kind.
const KINDS: &[u8] =
    b": combine one of GETOPTS_NO, YES and MAYBE with GETOPTS_REQ, MULTI, both or neither";

/// What to write instead of a hint for an option that takes no argument.
const NO_ARGUMENT: &[u8] =
    b"' on an option without argument: remove it, or use GETOPTS_YES or MAYBE";

/// What is wrong with bytes for which `text` returns none.
const NO_TEXT: &[u8] = b" must be UTF-8 with all characters below U+10FF80";

/// What is wrong with a row by itself: the first mistake, in the order of the cases below.
#[cold]
fn wrong_row(place: usize, row: Row<&[u8]>) -> AllocResult<Wrong> {
    let ([short, long, hint, _], texts) = (row.texts, row.texts.map(text));
    let (kind, bad) = (digits(row.kind as usize)?, texts.iter().position(Option::is_none));
    let parts: [&[u8]; 3] = match bad {
        _ if short.len() > 1 => [b"short name '", shown(short), b"' isn't one ASCII character"],
        _ if long.len() == 1 => [b"long name '", long, b"' has 1 byte: write it as the short name"],
        _ if short.len() + long.len() == 0 => [b"both names are empty", b"", b""],
        _ if short == b"-" => [b"short name '-' can't be given: choose another", b"", b""],
        _ if long.starts_with(b"-") => {
            [b"long name '", shown(long), b"' begins with '-': remove it"]
        }
        _ if kind_of(row.kind).is_none() => [b"invalid kind ", &kind, KINDS],
        Some(nth) => [b"the ", TEXTS[nth], NO_TEXT],
        None => [b"hint '", shown(hint), NO_ARGUMENT],
    };
    message_of(&[b"table[", &digits(place)?, b"]: ", parts[0], parts[1], parts[2]])
}

/// What is wrong with a row that has a name of an earlier row, if there is one: the name then means
/// the option of another row. A short name means what its row's long name means, so that a repeated
/// long name has to be reported first.
#[cold]
fn repeated_name(options: &Options) -> AllocResult<Wrong> {
    let matches = options.parse_ignoring_counts(Global, &[""; 0]).map_err(|_| AllocError)?;
    let groups = (0..options.len()).filter_map(|place| Some((options.get(place)?, place)));
    let names = groups.flat_map(|(it, place)| [(it.short_name, place), (it.long_name, place)]);
    let twice = names.filter_map(|(name, place)| {
        let other = matches.opt_place(name).filter(|other| *other != place)?;
        Some((place.max(other), name, place.min(other)))
    });
    let first = twice.min_by_key(|(place, name, _)| (*place, name.len() == 1));
    let Some((place, name, other)) = first else { return Ok(None) };
    message_of(&[
        b"table[",
        &digits(place)?,
        b"]: ",
        TEXTS[usize::from(name.len() > 1)],
        b" '",
        shown(name.as_bytes()),
        b"' is also in table[",
        &digits(other)?,
        b"]: rename one",
    ])
}

/// The part of a name that a message shows: all, or its first bytes up to the end of a character.
fn shown(name: &[u8]) -> &[u8] {
    let mut end = name.len().min(SHOWN);
    // A character has at most three continuation bytes.
    let goes_on = |end: usize| name.get(end).map_or(false, |byte| byte & 0xC0 == 0x80);
    while goes_on(end) && SHOWN - end < 3 {
        end -= 1;
    }
    &name[..end]
}

/// The message that consists of these parts.
fn message_of(parts: &[&[u8]]) -> AllocResult<Wrong> {
    let mut message = Vec::empty(Global);
    for part in parts {
        message.try_extend_from_slice(part)?;
    }
    message.try_push(0)?;
    Ok(Some(message))
}

/// A number in decimal digits.
fn digits(number: usize) -> AllocResult<Vec<u8>> {
    let (mut text, mut rest) = (Vec::empty(Global), Some(number));
    while let Some(number) = rest {
        text.try_push(b'0' + (number % 10) as u8)?;
        rest = Some(number / 10).filter(|rest| *rest > 0);
    }
    text.reverse();
    Ok(text)
}
