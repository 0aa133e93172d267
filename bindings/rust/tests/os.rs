//! Arguments of any bytes, borrowed values, and methods of matches.

use getopts::iter::{Occurrences, OsOccurrences, Values};
use getopts::{Fail, Given, HasArg, Occur, Options, OsGetError, ParsingStyle};
use std::borrow::Cow;
use std::cell::Cell;
use std::ffi::{OsStr, OsString};
use std::iter::{once, repeat};
use std::panic::{AssertUnwindSafe, catch_unwind};
use std::rc::Rc;

fn options() -> Options {
    let mut options = Options::new();
    options.optopt("o", "output", "", "NAME").optflagmulti("v", "verbose", "");
    options.opt("c", "color", "", "WHEN", HasArg::Maybe, Occur::Multi);
    options
}

/// Arguments that aren't valid Unicode, if the system allows any.
fn not_unicode() -> Vec<OsString> {
    #[cfg(unix)]
    {
        use std::os::unix::ffi::OsStringExt;
        let words: [&[u8]; 10] = [
            b"\xff",
            b"\xff.txt",
            b"caf\xe9",
            b"a\x80",
            b"\xe2\x82\xc3\xa9",
            b"\xed\xa0\x80",
            b"\xf4\x8f\xbe\x80",
            b"\xf4\x8f\xbf\xbf",
            b"=\xff=",
            "日本\u{10FFFF}".as_bytes(),
        ];
        let owned = |word: &[u8]| OsString::from_vec(word.to_vec());
        words.map(owned).to_vec()
    }
    #[cfg(windows)]
    {
        let words: [&[u16]; 5] = [
            &[0xD800],
            &[0x61, 0xDC00, 0x62],
            &[0xDBFF, 0xDFFF, 0xD83D],
            &[0xDFFF, 0xD800, 0x3D, 0xD801],
            &[0xD83D, 0xDE00],
        ];
        words.map(std::os::windows::ffi::OsStringExt::from_wide).to_vec()
    }
    #[cfg(not(any(unix, windows)))]
    {
        vec![OsString::from("日本\u{10FFFF}")]
    }
}

fn joined(front: &str, word: &OsStr) -> OsString {
    let mut all = OsString::from(front);
    all.push(word);
    all
}

#[test]
fn arguments_of_any_bytes_are_preserved() {
    for word in not_unicode() {
        let words = [
            joined("-o", &word),
            joined("--color=", &word),
            OsString::from("-v"),
            OsString::from("-c"),
            OsString::from("--"),
            word.clone(),
        ];
        let matches = options().parse_os(&words).unwrap();
        assert_eq!(matches.value("output"), Some(&*word));
        assert!(matches.values("c").eq([&*word]));
        assert!(matches.occurrences("c").eq([(1, Some(&*word)), (3, None)]));
        assert_eq!(matches.free, std::slice::from_ref(&word));
        assert_eq!((matches.opt_count("v"), matches.opt_positions("v")), (1, vec![2]));
        assert_eq!(matches.free_trailing_start(), Some(0));
        assert_eq!(matches, matches.clone());
        assert!(!matches.opt_defined("x") && matches.opt_present("color"));
        assert_eq!(matches.opt_default("c", "auto"), Some(&*word));
        match matches.opt_get::<String>("o") {
            Ok(text) => assert_eq!(text.as_deref(), word.to_str()),
            Err(error) => {
                assert!(word.to_str().is_none() && error == OsGetError::NotUtf8);
                assert_eq!(error.to_string(), "invalid UTF-8");
            }
        }
        // The characters that represent bytes aren't printed.
        assert!(format!("{matches:?}").contains(&format!("vals: [[(0, Val({word:?}))]")));
        assert!(format!("{matches:?}").contains(&format!("free: [{word:?}]")));
    }
}

/// The names and the value of each option; for a positional argument, two empty names.
fn parts<T>(given: Vec<Given<'_, T>>) -> Vec<(&str, &str, Option<T>)> {
    let parts = |given| match given {
        Given::Option { short, long, value, .. } => (short, long, value),
        Given::Free(word) => ("", "", Some(word)),
    };
    given.into_iter().map(parts).collect()
}

#[test]
fn parse_os_in_order_returns_words_as_given() {
    let options = options();
    for word in not_unicode() {
        let [c, v, end] = ["-c", "-v", "--"].map(OsString::from);
        let words = [joined("-vo", &word), "in".into(), c, word.clone(), v, end, word.clone()];
        let given = [
            ("v", "verbose", None),
            ("o", "output", Some(word.clone())),
            ("", "", Some("in".into())),
            ("c", "color", Some(word.clone())),
            ("v", "verbose", None),
            ("", "", Some(word)),
        ];
        assert_eq!(parts(options.parse_os_in_order(&words).unwrap()), given);
    }
    let given = parts(options.parse_os_in_order(["in.txt", "-ofile", "-v"]).unwrap());
    let output = ("o", "output", Some("file".into()));
    assert_eq!(given, [("", "", Some("in.txt".into())), output, ("v", "verbose", None)]);
    assert_eq!(options.parse_os_in_order(["-x"]), Err(Fail::UnrecognizedOption("x".into())));
}

/// Words of any bytes, in names, values, clusters and free words.
fn any_line(random: &mut impl FnMut(usize) -> usize) -> Vec<OsString> {
    let pieces = "- - -- v v o c = verbose output größe --größe= x é 日本 \u{FFFD} \u{10FF80}";
    let pieces: Vec<_> = pieces.split(' ').collect();
    let others = not_unicode();
    let mut word = || {
        let mut word = OsString::from(["", "-", "-v", "-vo", "--", "--output=", "-c"][random(7)]);
        for _ in 0..random(4) {
            match random(3) {
                0 => word.push(&others[random(others.len())]),
                _ => word.push(pieces[random(pieces.len())]),
            }
        }
        word
    };
    let words = (0..6).map(|_| word()).collect::<Vec<_>>();
    let count = random(7);
    words.into_iter().take(count).collect()
}

#[test]
fn a_loop_gives_what_parse_os_in_order_gives() {
    let mut options = Options::new();
    options.optflagmulti("v", "verbose", "").optmulti("o", "output", "", "NAME");
    options.opt("c", "größe", "", "N", HasArg::Maybe, Occur::Multi);
    let mut state = 1_u64;
    let mut random = |below: usize| {
        state = state.wrapping_mul(0x5851_F42D_4C95_7F2D).wrapping_add(1);
        (state >> 33) as usize % below
    };
    let (mut accepted, mut marked) = (0, 0);
    for _ in 0..40_000 {
        let line = any_line(&mut random);
        let style = [ParsingStyle::FloatingFrees, ParsingStyle::StopAtFirstFree][random(2)];
        options.parsing_style(style).long_only(random(4) == 0);
        let texts: Option<Vec<&str>> = line.iter().map(|word| word.to_str()).collect();
        let texts = texts.filter(|line| line.concat().chars().all(|char| char < '\u{10FF80}'));
        let mut of_texts = texts.as_ref().map(|line| options.read(line));
        let mut reader = options.read_os(&line);
        let (mut given, mut fail) = (Vec::new(), None);
        while let Some(item) = reader.next() {
            assert!(fail.is_none() && line.ends_with(reader.words()));
            if let Some(free_words) = reader.free_words() {
                assert!(line.ends_with(free_words) && free_words[1..] == *reader.words());
            }
            if let Some(of_texts) = &mut of_texts {
                // The loop over texts stops and goes on at the same words.
                assert_eq!(of_texts.next().unwrap().is_err(), item.is_err());
                assert_eq!(of_texts.words().len(), reader.words().len());
                assert_eq!(
                    of_texts.free_words().map(<[_]>::len),
                    reader.free_words().map(<[_]>::len)
                );
                assert_eq!(format!("Os{of_texts:?}"), format!("{reader:?}"));
            }
            match item {
                Ok(Given::Option { short, long, value, .. }) => {
                    given.push((short, long, value.map(|value| value.into_owned())));
                }
                Ok(Given::Free(word)) => given.push(("", "", Some(word.into_owned()))),
                Err(error) => fail = Some(error),
            }
        }
        assert!(reader.next().is_none() && (fail.is_some() || reader.words().is_empty()));
        assert_eq!(reader.free_words(), fail.is_none().then_some(&[][..]));
        // No name has an invalid byte, so an error shows the same as that of the texts.
        let lossy = line.iter().map(|word| word.to_string_lossy().into_owned());
        assert_eq!(fail, options.parse_in_order(lossy).err(), "{line:?}");
        let order = options.parse_os_in_order(&line).map(parts);
        accepted += usize::from(order.is_ok());
        marked += usize::from(line.iter().any(|word| word.to_str().is_none()));
        assert_eq!(fail.map_or(Ok(given), Err), order, "{line:?}");
    }
    assert!(accepted > 4_000 && (marked > 4_000 || cfg!(not(any(unix, windows)))));
}

#[test]
fn a_loop_borrows_what_it_can() {
    let mut options = options();
    options.parsing_style(ParsingStyle::StopAtFirstFree);
    for word in not_unicode() {
        let words = [joined("-vo", &word), "-o".into(), word.clone(), word.clone(), "-v".into()];
        let mut reader = options.read_os(&words);
        assert!(matches!(reader.next(), Some(Ok(Given::Option { short: "v", .. }))));
        assert_eq!(reader.next_word_if(|_| unreachable!()), None);
        let shown = format!("OsReader {{ names: {:?}, words: ", joined("o", &word));
        assert!(format!("{reader:?}").starts_with(&shown));
        for (rest, may_copy) in [(&words[1..], true), (&words[3..], false)] {
            match reader.next() {
                Some(Ok(Given::Option { short: "o", value: Some(value), .. })) => {
                    assert_eq!((&*value, reader.words()), (&*word, rest));
                    assert!(may_copy || matches!(value, Cow::Borrowed(_)));
                }
                item => panic!("{item:?}"),
            }
        }
        assert_eq!(reader.next_word_if(|next| next != word), None);
        assert_eq!(reader.next_word_if(|next| next == word), Some(&*words[3]));
        assert!(matches!(reader.next(), Some(Ok(Given::Option { short: "v", .. }))));
        assert!(reader.next().is_none() && reader.words().is_empty());
    }
}

#[test]
fn parse_os_matches_parse() {
    let words = ["-oé", "--verbose", "日本", "-c", "--", "-x"];
    let (texts, matches) = (options().parse(words).unwrap(), options().parse_os(words).unwrap());
    for name in ["o", "verbose", "c"] {
        assert_eq!(texts.opt_count(name), matches.opt_count(name));
        assert!(texts.values(name).map(OsStr::new).eq(matches.values(name)));
        assert_eq!(texts.opt_positions(name), matches.opt_positions(name));
    }
    assert!(texts.free.iter().map(OsStr::new).eq(&matches.free));
    assert_eq!(format!("{matches:?}"), format!("Os{texts:?}"));
    let given = (matches.opt_default("c", "auto"), matches.opt_default("verbose", "x"));
    assert_eq!(given, (Some("auto".as_ref()), Some("x".as_ref())));
    let none = options().parse_os(["-o7"]).unwrap();
    assert_eq!((none.opt_default("c", "auto"), none.opt_get::<u8>("c")), (None, Ok(None)));
    assert_eq!((none.opt_get::<u8>("o"), none.opt_get("o")), (Ok(Some(7)), Ok(Some('7'))));
    assert!(matches!(none.opt_get::<bool>("o"), Err(OsGetError::Invalid(_))));
    assert_eq!(options().parse_os(["-x"]).unwrap_err(), Fail::UnrecognizedOption("x".into()));
}

#[test]
fn errors_have_text() {
    for word in not_unicode().iter().filter(|word| word.to_str().is_none()) {
        let fail = options().parse([word]).unwrap_err();
        assert_eq!(fail, Fail::UnrecognizedOption(format!("{word:?}")));
        let fail = options().parse_os_ignoring_counts([word.clone(), joined("-x", word)]);
        assert_eq!(fail.unwrap_err(), Fail::UnrecognizedOption("x".into()));
    }
    // Characters whose encodings are marks.
    for line in
        [["-v\u{10FFFF}\u{10FF80}", ""], ["-o\u{10FF80}", "-\u{10FFFF}"], ["x", "-v\u{10FFFF}=x"]]
    {
        let wanted = Fail::UnrecognizedOption("\u{10FFFF}".into());
        assert_eq!(options().parse_os(line).unwrap_err(), wanted);
        assert_eq!(options().parse(line).unwrap_err(), wanted);
    }
    // Where arguments have to be UTF-8, any other is an error.
    #[cfg(target_os = "wasi")]
    {
        let word: &OsStr = std::os::wasi::ffi::OsStrExt::from_bytes(b"\xff");
        let fail = options().parse_os([OsStr::new("-o"), word]).unwrap_err();
        assert_eq!(fail, Fail::UnrecognizedOption("\"\\xFF\"".into()));
    }
}

#[test]
fn parse_os_finds_names_with_byte_characters_by_bytes() {
    let (name, mut options) = ("\u{10FF80}", Options::new());
    options.optflag("", name, "");
    let word = format!("--{name}");
    assert!(options.parse([&word]).unwrap().opt_present(name));
    assert!(options.parse_os([&word]).is_err());
    #[cfg(unix)]
    {
        let word: &OsStr = std::os::unix::ffi::OsStrExt::from_bytes(b"--\x80");
        assert!(options.parse_os([word]).unwrap().opt_present(name));
    }
}

/// Checks an iterator from both ends, with these items.
fn check_both_ends<I>(given: I, items: &[I::Item])
where
    I: DoubleEndedIterator + Clone + std::fmt::Debug,
    I::Item: PartialEq + std::fmt::Debug,
{
    assert_eq!(format!("{given:?}"), format!("{items:?}"));
    for taken in 0..=items.len() {
        let mut left = given.clone();
        for item in &items[..taken] {
            assert_eq!(left.next().as_ref(), Some(item));
        }
        assert!(left.clone().eq(left.clone().rev().collect::<Vec<_>>().into_iter().rev()));
        let (least, most) = left.size_hint();
        assert!(least <= items.len() - taken && items.len() - taken <= most.unwrap());
        for item in items[taken..].iter().rev() {
            assert_eq!(left.next_back().as_ref(), Some(item));
        }
        assert_eq!((left.next(), left.next_back()), (None, None));
    }
}

#[test]
fn iterators_have_two_ends_and_can_be_stored() {
    struct Stored<'m>(Occurrences<'m>, Values<Occurrences<'m>>);
    struct OsStored<'m>(OsOccurrences<'m>, Values<OsOccurrences<'m>>);
    let mut words = vec![OsString::from("-c")];
    for (value, word) in ["x", "", "y"].iter().zip(not_unicode()) {
        let all = [joined("--color=", value.as_ref()), "-c".into(), joined("-c", &word)];
        words.extend(all);
        let matches = options().parse_os(&words).unwrap();
        let stored = OsStored(matches.occurrences("c"), matches.values("c"));
        assert_eq!(stored.0.len(), words.len());
        let items: Vec<_> = stored.0.clone().collect();
        assert_eq!(items[words.len() - 1], (words.len() - 1, Some(&*word)));
        assert_eq!(items[words.len() - 2], (words.len() - 2, None));
        check_both_ends(stored.0, &items);
        check_both_ends(stored.1, &items.iter().filter_map(|item| item.1).collect::<Vec<_>>());
    }
    let matches = options().parse(["-cx", "-v", "-c", "--color="]).unwrap();
    let stored = Stored(matches.occurrences("c"), matches.values("c"));
    assert_eq!((stored.0.len(), matches.occurrences("o").len()), (3, 0));
    check_both_ends(stored.0, &[(0, Some("x")), (2, None), (3, Some(""))]);
    check_both_ends(stored.1, &["x", ""]);
}

/// An argument, with other data.
struct Large<'a, const N: usize>(&'a OsStr, #[allow(dead_code)] [u8; N]);

impl<const N: usize> AsRef<OsStr> for Large<'_, N> {
    fn as_ref(&self) -> &OsStr {
        self.0
    }
}

/// An iterator that promises this many items, whatever it yields.
struct Promised<I>(I, usize);

impl<I: Iterator> Iterator for Promised<I> {
    type Item = I::Item;
    fn next(&mut self) -> Option<I::Item> {
        self.0.next()
    }
    fn size_hint(&self) -> (usize, Option<usize>) {
        (self.1, None)
    }
}

#[test]
fn parse_takes_any_iterator() {
    for count in [0, 1, 10, 11, 12, 20, 2_000] {
        let words = || Promised(repeat("x").take(count), usize::MAX);
        assert_eq!(options().parse(words()).unwrap().free, vec!["x"; count]);
        assert_eq!(options().parse_os(words()).unwrap().free, vec!["x"; count]);
    }
    let large = || (0..20).map(|_| Large("xxx".as_ref(), [0; 200_000]));
    assert_eq!(options().parse(large()).unwrap().free, ["xxx"; 20]);
    assert_eq!(options().parse_os(large()).unwrap().free, ["xxx"; 20]);
    assert_eq!(options().parse(Promised(large(), usize::MAX)).unwrap().free, ["xxx"; 20]);
    assert_eq!(options().canonical(large()).unwrap().unwrap().len(), 21);
}

/// Calls a test with numbers of words and of promised words. The first 11 words stay on the stack.
fn for_each_promise(test: impl Fn(usize, usize)) {
    for count in [1, 9, 10, 11, 12, 30, 31, 1_025, 3_000] {
        for promised in [0, 1, 3_000] {
            test(count, promised);
        }
    }
}

#[test]
fn parse_takes_all_items_and_asks_for_no_more() {
    for_each_promise(|count, promised| {
        let others = not_unicode();
        let others = others.iter().filter(|word| word.to_str().is_none()).map(|word| &**word);
        for word in ["x", "--unknown"].into_iter().map(OsStr::new).chain(others) {
            let mut left = (0..=count).rev();
            let words = std::iter::from_fn(|| (left.next().unwrap() > 0).then_some(word));
            let result = options().parse(Promised(words, promised));
            assert_eq!(
                result.map(|matches| matches.free.len()).ok(),
                (word == "x").then_some(count)
            );
            assert_eq!(left.next(), None);
        }
    });
}

/// Until then, all items are kept.
#[test]
fn panics_of_an_iterator_drop_each_item_once() {
    for_each_promise(|count, promised| {
        let (word, kept) = (Rc::<OsStr>::from(OsStr::new("-v")), Cell::new(0));
        let words = (0..).map(|nth| {
            kept.set(Rc::strong_count(&word) - 1);
            assert!(nth < count, "the iterator's own panic");
            Rc::clone(&word)
        });
        let parse = AssertUnwindSafe(|| options().parse(Promised(words, promised)));
        assert!(catch_unwind(parse).is_err());
        assert_eq!(Rc::strong_count(&word), 1);
        assert_eq!(kept.get(), count);
    });
}

/// Errors show what isn't Unicode as `OsStr::to_string_lossy` does.
#[test]
fn errors_show_marks() {
    for word in not_unicode() {
        let shown = |word: OsString| options().parse_os([word]).unwrap_err();
        let lossy = word.to_string_lossy();
        let name = lossy.split('=').next().unwrap();
        assert_eq!(shown(joined("--", &word)), Fail::UnrecognizedOption(name.to_string()));
        let mark = "\u{FFFD}".to_string();
        if lossy.starts_with(&mark) {
            assert_eq!(shown(joined("-v", &word)), Fail::UnrecognizedOption(mark));
        }
        if word.to_str().is_none() {
            let mut options = options();
            options.optflag("", "\u{FFFD}", "");
            for other in ["--zzz", "--\u{10FFFF}"] {
                let fail = options.parse_os([joined("--", &word), other.into()]).unwrap_err();
                assert_eq!(fail, Fail::UnrecognizedOption(name.to_string()));
            }
        }
    }
}

#[test]
fn the_first_word_that_is_not_unicode_is_the_error() {
    for word in not_unicode().iter().filter(|word| word.to_str().is_none()) {
        for before in [0, 1, 10, 11, 12, 40, 5_000] {
            let words = || {
                let words = repeat(OsStr::new("x")).take(before).chain(repeat(&**word).take(2));
                words.chain(once("-z".as_ref()))
            };
            let wanted = Fail::UnrecognizedOption(format!("{word:?}"));
            assert_eq!(options().parse(words()).unwrap_err(), wanted);
            assert_eq!(options().parse_ignoring_counts(words()).unwrap_err(), wanted);
            assert_eq!(options().canonical(Promised(words(), usize::MAX)).unwrap_err(), wanted);
            let large = words().map(|word| Large(word, [0; 100]));
            assert_eq!(options().parse(large).unwrap_err(), wanted);
            let words: Vec<_> = words().take(before + 2).chain(once("y".as_ref())).collect();
            assert_eq!(options().parse_os(&words).unwrap().free, words);
        }
    }
}

#[test]
fn matches_are_small() {
    assert!(std::mem::size_of::<getopts::Matches>() <= 29 * std::mem::size_of::<usize>());
}
