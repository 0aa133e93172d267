//! A command line in a loop of the caller's, by the package and by the proved source.

use getopts::{Given, HasArg, Occur, Options, ParsingStyle};

fn options(style: ParsingStyle, long_only: bool) -> Options {
    let mut options = Options::new();
    options
        .optflagmulti("v", "verbose", "")
        .optmulti("C", "directory", "", "")
        .opt("c", "color", "", "", HasArg::Maybe, Occur::Multi)
        .parsing_style(style)
        .long_only(long_only);
    options
}

fn ordinary() -> Options {
    options(ParsingStyle::FloatingFrees, false)
}

/// An option's short name and its value, or a positional argument.
fn shown<T: AsRef<str>>(given: Given<'_, T>) -> String {
    match given {
        Given::Option { short, value: Some(value), .. } => format!("-{short}={}", value.as_ref()),
        Given::Option { short, .. } => format!("-{short}"),
        Given::Free(word) => format!("free {}", word.as_ref()),
    }
}

/// All items of a loop, of which there are fewer than 20.
fn read(options: &Options, words: &[&str]) -> Vec<String> {
    let item = |item: Result<_, getopts::Fail>| item.map_or_else(|fail| fail.to_string(), shown);
    options.read(words).take(20).map(item).collect()
}

#[test]
fn all_items() {
    let words = ["-vC", "a", "f", "-cred", "-c", "x", "-c", "-Cb", "--", "-v", "--"];
    let given = ["-v", "-C=a", "free f", "-c=red", "-c=x", "-c", "-C=b", "free -v", "free --"];
    assert_eq!(read(&ordinary(), &words), given);
    assert!(read(&ordinary(), &[]).is_empty());
    let stopping = options(ParsingStyle::StopAtFirstFree, false);
    assert_eq!(
        read(&stopping, &["-v", "run", "-v", "--"]),
        ["-v", "free run", "free -v", "free --"]
    );
    assert_eq!(read(&stopping, &["--", "run"]), ["free run"]);
}

#[test]
fn both_names_are_given() {
    let (options, words) = (ordinary(), ["-v", "--verbose"].map(String::from));
    assert!(options.read(&words).all(|given| {
        matches!(given, Ok(Given::Option { short: "v", long: "verbose", value: None, .. }))
    }));
}

#[test]
fn an_error_is_the_last_item() {
    let given = ["-v", "free f", "-v", "-v", "Unrecognized option: 'x'"];
    assert_eq!(read(&ordinary(), &["-v", "f", "-vvxv", "-v"]), given);
    let given = ["-v", "-v", "Argument to option 'C' missing"];
    assert_eq!(read(&ordinary(), &["-v", "-vC"]), given);
    for line in [&["-v", "--nope", "f"][..], &["-v", "-xv"], &["-vx", "f"]] {
        let options = ordinary();
        let mut reader = options.read(line);
        assert!(reader.next().unwrap().is_ok());
        assert!(reader.next().unwrap().is_err());
        assert_eq!(reader.words(), &line[1..]);
        assert!(reader.next().is_none() && reader.next().is_none());
        assert_eq!(reader.words(), &line[1..]);
    }
}

#[test]
fn stops_anywhere() {
    let (options, words) = (ordinary(), ["-vv", "run", "-x", "--", "y"]);
    let mut reader = options.read(&words);
    for (given, rest) in [("-v", &words[1..]), ("-v", &words[1..]), ("free run", &words[2..])] {
        assert_eq!(shown(reader.next().unwrap().unwrap()), given);
        assert_eq!(reader.words(), rest);
    }
    let mut reader = options.read(&words[3..]);
    assert_eq!(reader.words(), ["--", "y"]);
    assert_eq!(reader.by_ref().count(), 1);
    assert!(reader.words().is_empty() && reader.next().is_none());
}

#[test]
fn free_words_begin_with_the_last() {
    let words = ["-C", "a", "-vv", "run", "-v", "--"];
    let (stopping, ordinary) = (options(ParsingStyle::StopAtFirstFree, false), ordinary());
    let mut reader = stopping.read(&words);
    assert_eq!(reader.free_words(), None);
    for given in ["-C=a", "-v", "-v"] {
        assert_eq!(shown(reader.next().unwrap().unwrap()), given);
        assert_eq!(reader.free_words(), None);
    }
    for at in 3..6 {
        assert_eq!(reader.next(), Some(Ok(Given::Free(words[at]))));
        assert_eq!(reader.free_words(), Some(&words[at..]));
    }
    assert!(reader.next().is_none());
    assert_eq!(reader.free_words(), Some(&[][..]));
    // Options may follow a word, and an error.
    let mut reader = ordinary.read(&["run", "-v", "-x"]);
    while reader.next().is_some() {
        assert_eq!(reader.free_words(), None);
    }
    // After `--`, and at the end.
    let mut reader = ordinary.read(&["-v", "--", "a", "b"]);
    assert_eq!(reader.nth(1), Some(Ok(Given::Free("a"))));
    assert_eq!(reader.next_word_if(|_| true), Some("b"));
    assert_eq!((reader.free_words(), reader.words()), (Some(&["a", "b"][..]), &[][..]));
    let mut reader = ordinary.read(&["-v"]);
    assert_eq!((reader.by_ref().count(), reader.free_words()), (1, Some(&[][..])));
}

#[test]
fn words_are_taken_as_they_were_given() {
    let (options, words) = (ordinary(), ["-5", "-vC", "-1", "--", "-v"]);
    let mut reader = options.read(&words);
    assert_eq!(reader.next_word_if(|word| word == "-6"), None);
    assert_eq!(reader.next_word_if(|word| word == "-5"), Some("-5"));
    assert_eq!(shown(reader.next().unwrap().unwrap()), "-v");
    // The next item is `C`.
    assert_eq!(reader.next_word_if(|_| unreachable!()), None);
    assert_eq!(shown(reader.next().unwrap().unwrap()), "-C=-1");
    assert_eq!(reader.next_word_if(|word| word == "--"), Some("--"));
    assert_eq!(shown(reader.next().unwrap().unwrap()), "-v");
    assert_eq!(reader.next_word_if(|_| unreachable!()), None);
}

#[test]
fn reads_on_after_an_error() {
    let options = ordinary();
    // The word that couldn't be read, if it is left, and what is read after it.
    for (line, word, given) in [
        (&["-x", "-v"][..], Some("-x"), &["-v"][..]),
        (&["-v", "--nope", "f"], Some("--nope"), &["free f"]),
        (&["-vx", "-v"], None, &["-v"]),
        (&["-vC"], None, &[]),
        (&["-C"], Some("-C"), &[]),
    ] {
        let mut reader = options.read(line);
        assert!(reader.by_ref().any(|given| given.is_err()));
        assert_eq!(reader.next_word_if(|_| true), word);
        assert!(reader.next().is_none());
        assert_eq!(read(&options, reader.words()), given);
    }
}

#[test]
fn debug_shows_what_is_left() {
    let options = ordinary();
    let mut reader = options.read(&["-vC", "a"]);
    assert!(reader.next().is_some());
    assert_eq!(format!("{reader:?}"), r#"Reader { names: "C", words: ["a"], .. }"#);
}

/// Calls a closure with all lines of up to this many of some words.
fn for_lines(longest: usize, each: impl Fn(&[&str])) {
    const WORDS: [&str; 13] = [
        "-v",
        "-vC",
        "-Cx",
        "-c",
        "-cv",
        "f",
        "--color",
        "--directory",
        "--color=1",
        "--",
        "-",
        "-vx",
        "--verbose",
    ];
    let mut lines = vec![vec![]];
    for _ in 0..=longest {
        lines.iter().for_each(|line| each(line));
        let with = |line: &Vec<_>| WORDS.map(|word| [&line[..], &[word]].concat());
        lines = lines.iter().flat_map(with).collect();
    }
}

#[test]
fn items_are_those_of_parse_in_order() {
    use ParsingStyle::{FloatingFrees, StopAtFirstFree};
    for (longest, style, long_only) in
        [(4, FloatingFrees, false), (3, StopAtFirstFree, false), (3, FloatingFrees, true)]
    {
        let options = options(style, long_only);
        for_lines(longest, |line| {
            let given = options.read(line).collect::<Result<Vec<_>, _>>();
            let given = given.map(|given| given.into_iter().map(shown).collect::<Vec<_>>());
            let order = options.parse_in_order(line);
            assert_eq!(
                given,
                order.map(|order| order.into_iter().map(shown).collect()),
                "{line:?}"
            );
        });
    }
}

/// The loop of the proved source.
#[cfg(feature = "proved")]
mod proved {
    use getopts::alloc::Global;
    use getopts::proved::{Fail, Given, HasArg, Occur, Options, ParsingStyle, Unread};

    fn options() -> Options {
        let mut options = Options::new(Global);
        options.optflagmulti("v", "verbose", "").unwrap();
        options.optmulti("C", "directory", "", "").unwrap();
        options.opt("c", "color", "", "", HasArg::Maybe, Occur::Multi).unwrap();
        options
    }

    fn shown(given: Given<'_>) -> String {
        match given {
            Given::Option { place, value: Some(value) } => format!("-{}={value}", NAMES[place]),
            Given::Option { place, .. } => format!("-{}", NAMES[place]),
            Given::Free(word) => format!("free {word}"),
        }
    }

    const NAMES: [&str; 3] = ["v", "C", "c"];

    /// The same items as those of the package, and the same error after them.
    #[test]
    fn items_are_those_of_the_package() {
        let (options, package) = (options(), super::ordinary());
        let reader = options.reader(Global).unwrap();
        super::for_lines(4, |line| {
            let (mut unread, mut items) = (Unread::new(line), Vec::new());
            loop {
                match reader.next(Global, &mut unread) {
                    Ok(Some(given)) => items.push(shown(given)),
                    Ok(None) => break,
                    Err(fail) => {
                        items.push(fail.to_string());
                        break;
                    }
                }
            }
            assert_eq!(items, super::read(&package, line), "{line:?}");
        });
    }

    #[test]
    fn stops_anywhere() -> Result<(), Fail> {
        let options = options();
        let reader = options.reader(Global)?;
        let words = ["-vv", "run", "-x", "--", "y"];
        let mut unread = Unread::new(&words);
        assert_eq!(reader.next(Global, &mut unread)?.map(shown).as_deref(), Some("-v"));
        assert_eq!((unread.names, unread.words), ("v", &words[1..]));
        assert_eq!(reader.next(Global, &mut unread)?.map(shown).as_deref(), Some("-v"));
        assert_eq!(reader.next(Global, &mut unread)?, Some(Given::Free("run")));
        assert_eq!((unread.names, unread.words), ("", &words[2..]));
        assert!(reader.next(Global, &mut unread).is_err());
        assert_eq!((unread.names, unread.words), ("", &words[2..]));
        unread.words = &unread.words[1..];
        assert_eq!(unread.free_words, None);
        assert_eq!(reader.next(Global, &mut unread)?, Some(Given::Free("y")));
        assert_eq!(unread.free_words, Some(&words[4..]));
        assert_eq!(reader.next(Global, &mut unread)?, None);
        assert_eq!(unread.free_words, Some(&words[5..]));
        assert_eq!(reader.next(Global, &mut unread)?, None);
        Ok(())
    }

    #[test]
    fn a_free_word_ends_the_options_in_the_stopping_style() -> Result<(), Fail> {
        let mut options = options();
        options.parsing_style(ParsingStyle::StopAtFirstFree);
        let mut unread = Unread::new(&["-v", "run", "-v"]);
        let reader = options.reader(Global)?;
        assert_eq!(reader.next(Global, &mut unread)?.map(shown).as_deref(), Some("-v"));
        assert_eq!(reader.next(Global, &mut unread)?, Some(Given::Free("run")));
        assert_eq!((unread.free_words, unread.words), (Some(&["run", "-v"][..]), &["-v"][..]));
        assert_eq!(reader.next(Global, &mut unread)?, Some(Given::Free("-v")));
        assert_eq!(reader.next(Global, &mut unread)?, None);
        Ok(())
    }

    /// A program may end the options itself, as with a negative number.
    #[test]
    fn a_program_ends_the_options() -> Result<(), Fail> {
        let options = options();
        let reader = options.reader(Global)?;
        let mut unread = Unread::new(&["-v", "-5", "--", "-v"]);
        assert_eq!(reader.next(Global, &mut unread)?.map(shown).as_deref(), Some("-v"));
        assert!(reader.next(Global, &mut unread).is_err());
        unread.free_words = Some(&[]);
        for word in ["-5", "--", "-v"] {
            assert_eq!(reader.next(Global, &mut unread)?, Some(Given::Free(word)));
        }
        assert_eq!(reader.next(Global, &mut unread)?, None);
        Ok(())
    }
}
