//! Laws of `getopts::proved`, which answers no rows: its calls give what those of the package give,
//! or, if the package has no such call, what the documentation promises. Also laws of the package
//! that rows can't ask about, such as words of any bytes and help texts with any characters.

use crate::form::Line;
use crate::options::Group;
use getopts::alloc::Global;
use getopts::fallible::TryClone;
use getopts::proved::wrap::each_split_within;
use getopts::proved::{Fail, Given, HasArg, Matches, Occur, Options, ParsingStyle};
use std::fmt::Display;
use unicode_width::UnicodeWidthStr;

/// Panics unless a law holds.
macro_rules! law {
    ($holds:expr, $($about:expr),*) => {
        if !$holds {
            let about = [$(format!("\n  {} = {:?}", stringify!($about), $about)),*].concat();
            panic!("broken: {}{}", stringify!($holds), about)
        }
    };
}

/// Panics unless these calls of the modules give for a name what those of the package give.
macro_rules! same {
    ($ours:expr, $theirs:expr, $name:expr; $($call:ident($($more:expr)*)),*) => {
        $(law!($ours.$call(Global, $name $(, $more)*) == Ok($theirs.$call($name $(, $more)*)), $name);)*
    };
}

/// The declarations of a case so far, and its last words.
#[derive(Clone, Debug, Default)]
struct Declared {
    groups: Vec<Group>,
    stop: bool,
    long_only: bool,
    words: Vec<String>,
}

/// Checks the laws of each line of words, of the options of each case, and of copies. Returns the
/// number of lines.
pub fn check(rows: &str) -> usize {
    calls();
    let (mut declared, mut kept) = (Declared::default(), Declared::default());
    let mut lines = 0;
    for (nth, line) in rows.lines().filter_map(Line::read).enumerate() {
        match (line.word(), line.fields()) {
            ("case" | "anew", _) => {
                of_options(&declared, "Usage: x", 20 + nth % 70);
                declared = Declared::default();
            }
            ("style", [style]) => declared.stop = style == "stop",
            ("mode", [mode]) => declared.long_only = mode == "long-only",
            ("keep", []) => kept = declared.clone(),
            ("same", [..]) => equality(&declared, &kept),
            (
                "words" | "ignoring_counts" | "canonical" | "parse_in_order" | "check_counts",
                words,
            ) => {
                declared.words = words.to_vec();
                of_line(&declared, words);
                lines += 1;
            }
            _ => declared.groups.extend(Group::of_line(&line)),
        }
    }
    of_options(&declared, "Usage: x", 20);
    lines
}

fn options_of(declared: &Declared) -> Options {
    let mut options = Options::new(Global);
    for Group { short, long, desc, hint, kind, occur, .. } in &declared.groups {
        options.opt(short, long, desc, hint, *kind, *occur).unwrap();
    }
    options.parsing_style(style_of(declared)).long_only(declared.long_only);
    options
}

/// The same options of the package.
fn package_of(declared: &Declared) -> getopts::Options {
    let mut options = getopts::Options::new();
    declared.groups.iter().for_each(|group| group.add(&mut options));
    options.parsing_style(style_of(declared)).long_only(declared.long_only);
    options
}

fn style_of(declared: &Declared) -> ParsingStyle {
    [ParsingStyle::FloatingFrees, ParsingStyle::StopAtFirstFree][usize::from(declared.stop)]
}

/// A result with the text of its error, since the package has errors of another type.
fn with_text<T, E: Display>(result: Result<T, E>) -> Result<T, String> {
    result.map_err(|fail| fail.to_string())
}

/// Each call adds what `opt` adds.
fn calls() {
    let added = |add: &dyn Fn(&mut Options)| {
        let mut options = Options::new(Global);
        add(&mut options);
        options
    };
    let by_opt =
        |hint, kind, occur| added(&|o| _ = o.opt("a", "ab", "text", hint, kind, occur).unwrap());
    let (no, yes, maybe) = (HasArg::No, HasArg::Yes, HasArg::Maybe);
    let (once, multi) = (Occur::Optional, Occur::Multi);
    for (one, other) in [
        (added(&|o| _ = o.optflag("a", "ab", "text")), by_opt("", no, once)),
        (added(&|o| _ = o.optflagmulti("a", "ab", "text")), by_opt("", no, multi)),
        (added(&|o| _ = o.optflagopt("a", "ab", "text", "X")), by_opt("X", maybe, once)),
        (added(&|o| _ = o.optmulti("a", "ab", "text", "X")), by_opt("X", yes, multi)),
        (added(&|o| _ = o.optopt("a", "ab", "text", "X")), by_opt("X", yes, once)),
        (added(&|o| _ = o.reqopt("a", "ab", "text", "X")), by_opt("X", yes, Occur::Req)),
    ] {
        law!(one == other && one != Options::new(Global), one, other);
    }
}

/// Options, and the results of words, are equal if those of the package are. Options equal copies.
fn equality(declared: &Declared, kept: &Declared) {
    let ours = [declared, kept].map(|one| (options_of(one), &one.words));
    let theirs = [declared, kept].map(|one| (package_of(one), &one.words));
    law!((ours[0].0 == ours[1].0) == (theirs[0].0 == theirs[1].0), declared, kept);
    law!(ours[0].0.try_clone().as_ref() == Ok(&ours[0].0), declared);
    let ours = ours.map(|(options, words)| options.parse_words(Global, words));
    let theirs = theirs.map(|(options, words)| options.parse(words));
    law!((ours[0] == ours[1]) == (theirs[0] == theirs[1]), declared, kept);
}

// ---- parsing

fn of_line(declared: &Declared, words: &[String]) {
    let (options, package) = (options_of(declared), package_of(declared));
    let parsed = options.parse_words(Global, words);
    for fail in parsed.as_ref().err().into_iter().chain([&Fail::OutOfMemory]) {
        let (before, name, after) = fail.parts();
        law!(fail.to_string() == [before, name, after].concat() && !before.is_empty(), fail);
        law!(fail.try_clone().as_ref() == Ok(fail), fail);
    }
    let error = with_text(package.parse(words)).err();
    law!(parsed.as_ref().err().map(Fail::to_string) == error, declared, words);
    let texts = || words.iter().map(String::as_str);
    law!(options.parse(Global, texts()) == parsed, declared, words);
    let line = options.canonical_words(Global, words);
    law!(options.canonical(Global, texts()) == line, declared, words);
    law!(with_text(line) == with_text(package.canonical(words)), declared, words);
    let names: Vec<_> = package.iter().map(|it| [it.short_name, it.long_name]).collect();
    let order = options.parse_in_order(Global, words);
    law!(order.as_ref().err() == parsed.as_ref().err(), declared, words);
    let order = order.map(|given| {
        let parts = given.into_iter().map(|given| match given {
            Given::Option { place, value } => (Some(names[place]), value.map(String::from)),
            Given::Free(word) => (None, Some(word.to_string())),
        });
        parts.collect::<Vec<_>>()
    });
    let same = package.parse_in_order(words).map(|given| given.into_iter().map(parts).collect());
    law!(with_text(order) == with_text(same), declared, words);
    in_a_loop(&package, words);
    #[cfg(unix)]
    any_bytes(&package, words);
    without_dashes(&options, words);
    let uncounted = options.parse_ignoring_counts(Global, words);
    let fail = uncounted.as_ref().map_or(None, |read| read.check_counts(Global).err());
    let counted = uncounted.as_ref().and_then(|read| fail.as_ref().map_or(Ok(read), Err));
    law!(parsed.as_ref() == counted, declared, words);
    match (&uncounted, &package.parse_ignoring_counts(words)) {
        (Ok(matches), Ok(same)) => {
            law!(matches.free == same.free, words);
            law!(matches.free_trailing_start() == same.free_trailing_start(), words);
            law!(matches.try_clone().as_ref() == Ok(matches), words);
            accessors(declared, matches, same);
            of_names(declared, matches, same);
        }
        (ours, theirs) => law!(ours.is_err() && theirs.is_err(), declared, words),
    }
}

/// A loop reads what `parse_in_order` returns, but doesn't check how often options occur.
fn in_a_loop(package: &getopts::Options, words: &[String]) {
    let read = package.read(words).collect::<Result<Vec<_>, _>>();
    let fail = package.parse_ignoring_counts(words).err();
    law!(read.as_ref().err() == fail.as_ref(), read, words);
    if let (Ok(read), Ok(order)) = (read, package.parse_in_order(words)) {
        let read = read.into_iter().map(parts);
        let read = read.map(|(names, value)| (names, value.map(String::from)));
        law!(read.eq(order.into_iter().map(parts)), words);
    }
}

/// Words are free if another sign is in place of their dashes.
fn without_dashes(options: &Options, words: &[String]) {
    for sign in ["+", "/", "\u{2013}"] {
        let with = |word: &String| format!("{sign}{}", word.trim_start_matches('-'));
        let words: Vec<_> = words.iter().map(with).collect();
        let read = options.parse_ignoring_counts(Global, &words).unwrap();
        let mut places = 0..options.len();
        law!(read.free == words, words);
        law!(places.all(|place| read.occurrences_at(place).is_empty()), words);
    }
}

/// The names of an option and its value, or a free word.
fn parts<T>(given: getopts::Given<'_, T>) -> (Option<[&str; 2]>, Option<T>) {
    match given {
        getopts::Given::Option { short, long, value, .. } => (Some([short, long]), value),
        getopts::Given::Free(word) => (None, Some(word)),
    }
}

/// `parse_os` reads words of any bytes as `parse` reads the texts that encode them.
#[cfg(unix)]
fn any_bytes(package: &getopts::Options, words: &[String]) {
    use std::ffi::{OsStr, OsString};
    use std::os::unix::ffi::{OsStrExt, OsStringExt};
    const ENDS: [&[u8]; 6] =
        [b"", b"\xff", b"\xe2\x82", b"\xc0\x80", b"\xed\xa0\xbd\xed\xb8\x80", b"\xf4\x8f\xbf\xbf"];
    let text = |word: &OsStr| text_of(word.as_bytes());
    let ends = ENDS.iter().cycle().skip(words.len());
    let words = words.iter().zip(ends).map(|(word, end)| [word.as_bytes(), end].concat());
    let words: Vec<_> = words.map(OsString::from_vec).collect();
    let texts: Vec<_> = words.iter().map(|word| text(word)).collect();
    let (read, same) = match (package.parse_os(&words), package.parse(&texts)) {
        (Ok(read), Ok(same)) => (read, same),
        (read, same) => {
            let kinds = (read.err().map(|fail| kind(&fail)), same.err().map(|fail| kind(&fail)));
            return law!(kinds.0 == kinds.1, words, kinds);
        }
    };
    law!(read.free.iter().map(|word| text(word)).eq(same.free.iter().cloned()), read, words);
    law!(read.free_trailing_start() == same.free_trailing_start(), read, words);
    let order = package.parse_os_in_order(&words).unwrap().into_iter().map(parts);
    let order: Vec<_> = order.map(|(names, value)| (names, value.map(|it| text(&it)))).collect();
    let others = package.parse_in_order(&texts).unwrap().into_iter().map(parts);
    law!(others.eq(order.iter().cloned()), order, words);
    for [short, long] in order.iter().filter_map(|(names, _)| *names) {
        let name = if long.is_empty() { short } else { long };
        let found = same.occurrences(name).map(|(at, value)| (at, value.map(str::to_string)));
        law!(
            found.eq(read.occurrences(name).map(|(at, value)| (at, value.map(text)))),
            name,
            words
        );
    }
}

#[cfg(unix)]
fn kind(fail: &getopts::Fail) -> std::mem::Discriminant<getopts::Fail> {
    std::mem::discriminant(fail)
}

/// The text that encodes a word: bytes of no character are marks, and so are those of marks.
#[cfg(unix)]
fn text_of(mut word: &[u8]) -> String {
    let mut text = String::new();
    while !word.is_empty() {
        let valid = std::str::from_utf8(word).map_or_else(|error| error.valid_up_to(), str::len);
        let (head, rest) = word.split_at(valid);
        let (wrong, rest) = rest.split_at(rest.len().min(1));
        for char in std::str::from_utf8(head).unwrap().chars().map(String::from) {
            text += &if char.as_str() < "\u{10ff80}" { char } else { marks(char.as_bytes()) };
        }
        text += &marks(wrong);
        word = rest;
    }
    text
}

#[cfg(unix)]
fn marks(bytes: &[u8]) -> String {
    bytes.iter().map(|byte| char::from_u32(0x10ff00 + u32::from(*byte)).unwrap()).collect()
}

/// A name is defined if a group has it. `occurrences_at` gives what the accessors give for the
/// names of its option, and so do those of the package. Conversions get the first value.
fn accessors(declared: &Declared, matches: &Matches, package: &getopts::Matches) {
    let names = declared.groups.iter().flat_map(|group| [&group.short[..], &group.long]);
    let undashed = names.clone().map(|name| name.trim_start_matches('-'));
    for name in names.clone().chain(undashed).chain(["help", "version", "nope"]) {
        let place = matches.opt_place(name);
        let has = !name.is_empty() && names.clone().any(|other| other == name);
        law!([matches.opt_defined(name), place.is_some()] == [has; 2], name, declared);
        let found: Vec<_> =
            place.map(|at| matches.occurrences_at(at)).into_iter().flatten().collect();
        let positions = matches.opt_positions(Global, name).unwrap();
        law!(positions.iter().eq(found.iter().map(|(at, _)| at)), name, found);
        let strs = matches.opt_strs(Global, name).unwrap();
        law!(strs.iter().eq(found.iter().filter_map(|one| one.1)), name, found);
        law!(place.is_none() || package.occurrences(name).eq(found.iter().copied()), name, found);
        let first = found.first().and_then(|(_, value)| value.map(str::to_string));
        law!(matches.opt_get::<String>(name) == Ok(first.clone()), name, found, declared);
        let got = matches.opt_get_default(name, "def".to_string()).ok();
        law!(got == first.or(Some("def".to_string())), name, got, found, declared);
    }
    let past = declared.groups.len();
    for place in (0..past).chain([past, past + 1, usize::MAX]) {
        let found = matches.occurrences_at(place);
        law!(place < past || found.is_empty(), place, declared);
        law!(found.get(found.len()).is_none() && found.get(usize::MAX).is_none(), place, declared);
        let one_by_one: Vec<_> = (0..found.len()).map(|nth| found.get(nth).unwrap()).collect();
        law!(found.into_iter().eq(one_by_one), place, declared);
    }
}

/// The accessors give what those of the package give, which panic on names that aren't declared.
fn of_names(declared: &Declared, matches: &Matches, package: &getopts::Matches) {
    let names = declared.groups.iter().flat_map(|group| [&group.short, &group.long]);
    let names: Vec<String> = names.filter(|name| !name.is_empty()).cloned().collect();
    law!(names.iter().all(|name| package.opt_defined(name)), names, declared);
    for (nth, name) in names.iter().enumerate() {
        law!(matches.opt_present(name) == package.opt_present(name), name, declared);
        law!(matches.opt_count(name) == package.opt_count(name), name, declared);
        same!(matches, package, name; opt_positions(), opt_str(), opt_strs(), opt_strs_pos());
        same!(matches, package, name; opt_default("def"));
        law!(matches.opt_get::<i32>(name) == package.opt_get::<i32>(name), name, declared);
        let truth = matches.opt_get_default(name, true);
        law!(truth == package.opt_get_default(name, true), name, declared);
        let names = &names[nth..];
        let texts: Vec<_> = names.iter().map(String::as_str).collect();
        law!(matches.opts_present(names) == package.opts_present(names), names, declared);
        law!(matches.opts_present_any(&texts) == package.opts_present_any(names), names, declared);
        law!(matches.opts_str(Global, names) == Ok(package.opts_str(names)), names, declared);
        let first = matches.opts_str_first(Global, &texts);
        law!(first == Ok(package.opts_str_first(names)), names, declared);
    }
}

// ---- declarations and help

/// The columns before a description, as the documentation of `usage_in` says.
const MARGIN: usize = 24;

/// The laws of options, and of their help within these columns and others.
fn of_options(declared: &Declared, brief: &str, columns: usize) {
    let (options, package) = (options_of(declared), package_of(declared));
    let help = |columns| options.usage_in(Global, brief, columns).unwrap();
    law!(options.usage(Global, brief).as_ref() == Ok(&help(MARGIN + 54)), declared, brief);
    law!(package.usage(brief) == help(MARGIN + 54), declared, brief);
    law!(package.usage_in(brief, columns) == help(columns), declared, columns);
    law!(options.short_usage(Global, "x") == Ok(package.short_usage("x")), declared);
    let rows = options.usage_rows(Global).unwrap();
    let formatted = options.usage_with_format(Global, |it| Ok(it.collect::<Vec<_>>().join("\n")));
    law!(formatted == Ok(rows.join("\n")), rows, declared);
    law!(package.usage_with_format(|it| it.eq(rows.clone()).to_string()) == "true", rows, declared);
    let lines = declared.groups.iter().flat_map(|group| group.desc.split('\n'));
    let widest = MARGIN + lines.map(width).max().unwrap_or(0);
    for columns in [columns, columns.rotate_right(16), widest, MARGIN, 0, usize::MAX] {
        let rows: Vec<_> = declared.groups.iter().map(|own| row(declared, own, columns)).collect();
        let text = format!("{brief}\n\nOptions:\n{}\n", rows.join("\n"));
        law!(help(columns) == text, help(columns), text, declared, columns);
    }
    let names = declared.groups.iter().flat_map(|group| [&group.short, &group.long]);
    let names: Vec<_> = names.filter(|name| !name.is_empty()).collect();
    let twice = (0..names.len()).find(|nth| names[..*nth].contains(&names[*nth]));
    let name = twice.map(|nth| names[nth].as_str());
    law!(package.repeated_name() == name, name, declared);
    let listed = package
        .iter()
        .map(|it| (it.short_name, it.long_name, it.hint, it.desc, it.hasarg, it.occur));
    let added = declared.groups.iter();
    let added = added.map(|it| (&*it.short, &*it.long, &*it.hint, &*it.desc, it.kind, it.occur));
    law!(listed.eq(added), declared);
}

/// The columns of words with one space between them.
fn width(text: &str) -> usize {
    let columns = text.split_whitespace().map(|word| 1 + word.width());
    columns.sum::<usize>().saturating_sub(1)
}

/// The row of one option, as documented. Checks how its description is wrapped.
fn row(declared: &Declared, own: &Group, columns: usize) -> String {
    let dashes = if declared.long_only { "-" } else { "--" };
    let long = Some(&own.long).filter(|long| long.width() > 0);
    let short = match (&own.short[..], long) {
        ("", _) if declared.groups.iter().all(|group| group.short.is_empty()) => String::new(),
        ("", _) => " ".repeat(4),
        (short, Some(_)) => format!("-{short}, "),
        (short, None) => format!("-{short} "),
    };
    let long = long.map_or(String::new(), |long| format!("{dashes}{long} "));
    let hint = match own.kind {
        HasArg::Yes => own.hint.clone(),
        HasArg::No => String::new(),
        HasArg::Maybe => format!("[{}]", own.hint),
    };
    let head = format!("    {short}{long}{hint}");
    let next = format!("\n{}", " ".repeat(MARGIN));
    let padding = MARGIN.checked_sub(head.width()).filter(|columns| *columns > 0);
    let padding = padding.map_or(next.clone(), |columns| " ".repeat(columns));
    let limit = columns.saturating_sub(MARGIN);
    let wrap = |text| each_split_within(Global, text, limit).unwrap();
    let rows = wrap(&own.desc);
    law!(rows == own.desc.split('\n').flat_map(wrap).collect::<Vec<_>>(), own, rows, columns);
    for line in own.desc.split('\n') {
        let (rows, words) = (wrap(line), line.split_whitespace().collect::<Vec<_>>());
        law!(rows.join(" ") == words.join(" "), own, rows, columns);
        let fits = |row: &String| width(row) <= limit || !row.contains(' ');
        law!(rows.iter().all(fits), own, rows, columns);
        let room = |row: &str, word: &str| (width(row) + 1).saturating_add(width(word)) <= limit;
        let is_short = |two: &[String]| room(&two[0], two[1].split(' ').next().unwrap());
        law!(!rows.windows(2).any(is_short), own, rows, columns);
    }
    head + &padding + &rows.join(&next)
}
