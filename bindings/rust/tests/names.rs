//! No call panics within the proved source: invalid names panic where they are added, with the
//! messages of the crate getopts, and undeclared names count as not given.
#![cfg(any(feature = "std", feature = "proved"))]

use std::cell::RefCell;
use std::panic::{AssertUnwindSafe, catch_unwind, set_hook, take_hook};
use std::sync::Once;

const SHORT: &str =
    "the short_name (first argument) should be a single character, or an empty string for none";
const LONG: &str = "the long_name (second argument) should be longer than a single character, \
                    or an empty string for none";
const NONE: &str = "this long-format option was given no name";

/// Invalid names, each with the panic message of the crate getopts, and what follows it.
const INVALID: [(&str, &str, &str, &str); 8] = [
    ("ab", "c", SHORT, ": \"ab\" has 2 bytes"),
    ("ab", "", SHORT, ": \"ab\" has 2 bytes"),
    ("é", "", SHORT, ": \"é\" has 2 bytes"),
    ("é", "long", SHORT, ": \"é\" has 2 bytes"),
    ("日", "c", SHORT, ": \"日\" has 3 bytes"),
    ("", "a", LONG, ": \"a\""),
    ("a", "b", LONG, ": \"b\""),
    ("", "", NONE, ""),
];

/// Unusual names that are valid.
const VALID: [(&str, &str); 6] =
    [("-", "--"), ("=", "a\0="), ("\0", "é"), (" ", "\u{10FFFF}"), ("", "  "), ("\t", "")];

thread_local!(static PLACE: RefCell<String> = RefCell::default());

/// The file and line at which a call panics, and the message.
fn panic_of<T>(call: impl FnOnce() -> T) -> (String, String) {
    static ONCE: Once = Once::new();
    ONCE.call_once(|| {
        let usual = take_hook();
        set_hook(Box::new(move |panic| {
            let place = panic.location().unwrap();
            PLACE.with(|last| last.replace(format!("{}:{}", place.file(), place.line())));
            usual(panic);
        }));
    });
    let panic = catch_unwind(AssertUnwindSafe(call)).map(drop).expect_err("it doesn't panic");
    let text = panic
        .downcast::<String>()
        .map_or_else(|text| text.downcast_ref::<&str>().unwrap().to_string(), |text| *text);
    (PLACE.with(RefCell::take), text)
}

type Add<O> = fn(&mut O, &str, &str);

/// Checks that these calls, on lines from `first` on, panic there if a name is invalid, and then
/// change nothing.
fn reject_invalid<O: PartialEq>(options: fn() -> O, first: u32, calls: &[Add<O>]) {
    for (line, add) in (first..).zip(calls) {
        let mut changed = options();
        for (short, long, front, end) in INVALID {
            let panic = panic_of(|| add(&mut changed, short, long));
            assert_eq!(panic, (format!("{}:{line}", file!()), format!("{front}{end}")));
        }
        assert!(changed == options());
    }
}

/// The calls in a source that add an option.
fn adding(source: &str) -> Vec<&str> {
    let calls = source.split("pub fn ").skip(1);
    let calls = calls.filter(|call| call.split('{').next().unwrap().contains("desc: &str"));
    calls.map(|call| call.split('(').next().unwrap()).collect()
}

/// The calls that the list in a module of this file has.
fn listed(module: &str) -> Vec<&'static str> {
    let (_, from) = include_str!("names.rs").split_once(&format!("\nmod {module} ")).unwrap();
    let calls = from.split("\nmod ").next().unwrap().split("|o, short, long| _ = o.").skip(1);
    calls.map(|call| call.split('(').next().unwrap()).collect()
}

#[cfg(feature = "std")]
mod of_the_crate {
    use super::*;
    use getopts::{HasArg, Occur, Options};

    #[test]
    fn invalid_names_panic() {
        assert_eq!(listed("of_the_crate"), adding(include_str!("../src/options.rs")));
        let first = line!() + 2;
        let calls: [Add<Options>; 7] = [
            |o, short, long| _ = o.opt(short, long, "", "", HasArg::Yes, Occur::Req),
            |o, short, long| _ = o.optflag(short, long, ""),
            |o, short, long| _ = o.optflagmulti(short, long, ""),
            |o, short, long| _ = o.optflagopt(short, long, "", ""),
            |o, short, long| _ = o.optmulti(short, long, "", ""),
            |o, short, long| _ = o.optopt(short, long, "", ""),
            |o, short, long| _ = o.reqopt(short, long, "", ""),
        ];
        reject_invalid(Options::new, first, &calls);
    }

    #[test]
    fn payload_without_a_name() {
        let panic = catch_unwind(|| _ = Options::new().optflag("", "", "")).unwrap_err();
        assert_eq!(panic.downcast_ref::<&str>(), Some(&NONE));
    }

    #[test]
    fn undefined_names_panic() {
        let (options, names) = (Options::new(), ["y".to_string()]);
        let (matches, os) = (options.parse(["x"]).unwrap(), options.parse_os(["x"]).unwrap());
        let first = line!() + 2;
        let calls: [&dyn Fn(); 23] = [
            &|| _ = matches.value("y"),
            &|| _ = matches.values("y"),
            &|| _ = matches.occurrences("y"),
            &|| _ = matches.opt_present("y"),
            &|| _ = matches.opt_count("y"),
            &|| _ = matches.opt_positions("y"),
            &|| _ = matches.opts_present_any(&names),
            &|| _ = matches.opts_str(&names),
            &|| _ = matches.opts_str_first(&names),
            &|| _ = matches.opt_strs("y"),
            &|| _ = matches.opt_strs_pos("y"),
            &|| _ = matches.opt_str("y"),
            &|| _ = matches.opt_default("y", ""),
            &|| _ = matches.opt_get::<u8>("y"),
            &|| _ = matches.opt_get_default("y", 7),
            &|| _ = os.value("y"),
            &|| _ = os.values("y"),
            &|| _ = os.occurrences("y"),
            &|| _ = os.opt_present("y"),
            &|| _ = os.opt_count("y"),
            &|| _ = os.opt_positions("y"),
            &|| _ = os.opt_default("y", ""),
            &|| _ = os.opt_get::<u8>("y"),
        ];
        for (line, call) in (first..).zip(calls) {
            let message = "No option 'y' defined".to_string();
            assert_eq!(panic_of(call), (format!("{}:{line}", file!()), message));
        }
    }

    #[test]
    fn names_after_the_first_given_one_are_not_looked_up() {
        let mut options = Options::new();
        let matches = options.optopt("o", "output", "", "").parse(["-o", "x"]).unwrap();
        assert!(matches.opts_present_any(["o", "nope"]));
        assert_eq!(matches.opts_str_first(["o", "nope"]).unwrap(), "x");
    }

    #[test]
    fn unusual_names_are_shown() {
        let mut options = Options::new();
        for (short, long) in VALID {
            options.optflag(short, long, "");
        }
        let usage = options.usage("");
        let rows: Vec<_> = usage.lines().skip(3).collect();
        assert_eq!(rows.len(), VALID.len());
        for (row, (short, _)) in rows.iter().zip(VALID) {
            let name = if short.is_empty() { " ".repeat(8) } else { format!("    -{short}") };
            assert!(row.starts_with(&name), "{row:?}");
        }
        assert!(options.parse(["-\0= \t-"]).unwrap().opt_present("\0"));
        let matches = options.parse(["--é", "--", "--é"]).unwrap();
        assert!(matches.opt_present("\0") && !matches.opts_present(&["nope".to_string()]));
    }
}

#[cfg(feature = "proved")]
mod of_the_proved_source {
    use super::*;
    use getopts::alloc::Global;
    use getopts::proved::wrap::each_split_within;
    use getopts::proved::{HasArg, Occur, Options, Unread, names_lawful};
    use std::cell::Cell;

    /// Options with a required option `o`, and the names in `VALID`.
    fn options() -> Options {
        let mut options = Options::new(Global);
        options.reqopt("o", "", "", "FILE").unwrap();
        for (short, long) in VALID {
            options.optflag(short, long, "").unwrap();
        }
        options
    }

    #[test]
    fn invalid_names_panic() {
        let source =
            concat!(include_str!("../src/names.rs"), include_str!("../src/proved/options.rs"));
        assert_eq!(listed("of_the_proved_source"), adding(source));
        let first = line!() + 2;
        let calls: [Add<Options>; 8] = [
            |o, short, long| _ = o.add_group(short, long, "", "", HasArg::Yes, Occur::Req),
            |o, short, long| _ = o.opt(short, long, "", "", HasArg::Yes, Occur::Req),
            |o, short, long| _ = o.optflag(short, long, ""),
            |o, short, long| _ = o.optflagmulti(short, long, ""),
            |o, short, long| _ = o.optflagopt(short, long, "", ""),
            |o, short, long| _ = o.optmulti(short, long, "", ""),
            |o, short, long| _ = o.optopt(short, long, "", ""),
            |o, short, long| _ = o.reqopt(short, long, "", ""),
        ];
        reject_invalid(options, first, &calls);
        assert!(INVALID.iter().all(|(short, long, ..)| !names_lawful(short, long)));
        let shown = options().usage(Global, "").unwrap();
        assert_eq!(shown.lines().count(), 4 + VALID.len());
    }

    #[test]
    fn undeclared_names_count_as_not_given() {
        let options = options();
        let matches = options.parse_words(Global, &["-ox", "--", "free"]).unwrap();
        let names = ["", "p", "nope", "é-", "日"];
        for name in names {
            assert!(!matches.opt_defined(name) && !matches.opt_present(name));
            assert_eq!((matches.opt_place(name), matches.opt_count(name)), (None, 0));
            assert_eq!(matches.opt_positions(Global, name), Ok(vec![]));
            assert_eq!(matches.opt_strs(Global, name), Ok(vec![]));
            assert_eq!(matches.opt_strs_pos(Global, name), Ok(vec![]));
            assert_eq!(matches.opt_str(Global, name), Ok(None));
            assert_eq!(matches.opt_default(Global, name, "default"), Ok(None));
            assert_eq!(matches.opt_get::<u8>(name), Ok(None));
            assert_eq!(matches.opt_get_default(name, 7), Ok(7));
        }
        assert!(!matches.opts_present(&names.map(String::from)));
        assert!(!matches.opts_present_any(&names));
        assert_eq!(matches.opts_str(Global, &["p", "o"].map(String::from)), Ok(Some("x".into())));
        assert_eq!(matches.opts_str_first(Global, &names), Ok(None));
    }

    /// A word whose text changes from call to call.
    struct Changing(Cell<usize>);

    impl AsRef<str> for Changing {
        fn as_ref(&self) -> &str {
            let nth = self.0.get();
            self.0.set(nth + 1);
            ["-o", "é", "--é=x", "-", "--", "-\0\t", ""][nth % 7]
        }
    }

    /// An iterator that promises more items than there are.
    struct Promising;

    impl Iterator for Promising {
        type Item = &'static str;
        fn next(&mut self) -> Option<&'static str> {
            None
        }
        fn size_hint(&self) -> (usize, Option<usize>) {
            (usize::MAX, None)
        }
    }

    #[test]
    fn odd_arguments_never_panic() {
        let options = options();
        let reader = options.reader(Global).unwrap();
        for count in 0..50 {
            for first in 0..7 {
                let words: Vec<_> =
                    (0..count).map(|nth| Changing(Cell::new(first + nth))).collect();
                let _ = options.parse_ignoring_counts(Global, &words);
                let _ = options.canonical_words(Global, &words);
                let _ = options.parse_in_order(Global, &words);
                let mut unread = Unread { names: "oé", ..Unread::new(&words) };
                while let Ok(Some(_)) = reader.next(Global, &mut unread) {}
                #[cfg(feature = "std")]
                getopts::Options::new().read(&words).for_each(drop);
            }
        }
        assert!(options.parse(Global, Promising).is_err());
        assert!(options.canonical(Global, Promising).is_err());
        let matches = options.parse_words(Global, &["-o", "x", "a", "--", "b"]).unwrap();
        assert!(matches.occurrences_at(usize::MAX).is_empty());
        assert_eq!(matches.occurrences_at(0).get(usize::MAX), None);
        for columns in [0, 1, usize::MAX] {
            assert!(each_split_within(Global, "日本 \t a\u{301}\n\0", columns).is_ok());
        }
    }
}
