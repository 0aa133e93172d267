//! If an allocation fails, the calls of `fallible` and `proved` report it, and leave what they
//! borrowed unchanged.

use getopts::alloc::{AllocError, AllocFailed, Global};
use getopts::fallible::*;
use getopts::proved::wrap::each_split_within;
use getopts::proved::{Fail, HasArg, Matches, Occur, Options, UsageRows};
use heap::{Heap, failing};

mod heap;

#[global_allocator]
static HEAP: Heap = Heap;

/// Makes each allocation of a call fail in turn, alone and with all later ones. The call gets a new
/// value each time, and has to fail exactly if an allocation failed; `seen` checks the value
/// afterwards. Returns the number of allocations.
fn fail_each<V, T, E>(
    made: impl Fn() -> V,
    call: impl Fn(&mut V) -> Result<T, E>,
    seen: impl Fn(&V, bool) -> bool,
) -> usize {
    let mut most = 0;
    for all in [false, true] {
        for granted in 0.. {
            let mut value = made();
            let (failed, had_to) = failing(granted, all, || call(&mut value).is_err());
            assert_eq!(failed, had_to, "allocation {granted}");
            assert!(seen(&value, failed), "allocation {granted}");
            if !failed {
                most = granted;
                break;
            }
        }
    }
    most
}

/// The same for a call that borrows a value.
fn fail_each_of<V, T, E>(value: &V, call: impl Fn(&V) -> Result<T, E>) -> usize {
    fail_each(|| (), |()| call(value), |(), _| true)
}

#[test]
fn strings_grow_or_stay() {
    let full = || String::from("ab");
    let is = |wanted: &'static str| {
        move |text: &String, failed: bool| text == if failed { "ab" } else { wanted }
    };
    assert_eq!(fail_each(full, |t| t.try_push_str("cd"), is("abcd")), 1);
    assert_eq!(fail_each(full, |t| t.try_push('é'), is("abé")), 1);
    assert_eq!(fail_each(full, |t| t.try_grow(9), is("ab")), 1);
    assert_eq!(fail_each(full, |t| t.try_push_str(""), is("ab")), 0);
    assert_eq!(fail_each_of(&full(), |t| t.try_clone()), 1);
    assert_eq!(fail_each_of(&(), |()| String::copy_of(Global, "ab")), 1);
    assert_eq!(fail_each_of(&(), |()| String::of_capacity(Global, 9)), 1);
    assert_eq!(String::of_capacity(Global, 9).map(|t| t.capacity()), Ok(9));
    assert_eq!(String::empty(Global).capacity(), 0);
    assert!(full().try_grow(usize::MAX).is_err());
}

#[test]
fn lists_grow_or_stay() {
    let full = || vec![3, 1, 2];
    let is = |wanted: &'static [i32]| {
        move |list: &Vec<i32>, failed: bool| list == if failed { &[3, 1, 2][..] } else { wanted }
    };
    assert_eq!(fail_each(full, |l| l.try_push(7), is(&[3, 1, 2, 7])), 1);
    assert_eq!(fail_each(full, |l| l.try_grow(9), is(&[3, 1, 2])), 1);
    assert_eq!(fail_each(full, |l| l.try_grow_exact(9), is(&[3, 1, 2])), 1);
    assert_eq!(fail_each(full, |l| l.try_sort_by(i32::cmp), is(&[1, 2, 3])), 0);
    assert_eq!(fail_each_of(&full(), |l| l.try_clone()), 1);
    let texts = ["a", "", "b"].map(String::from).to_vec();
    assert_eq!(fail_each_of(&texts, |l| l.try_clone()), 3);
    assert_eq!(texts.try_clone().as_ref(), Ok(&texts));
    let mut list = Vec::of_capacity(Global, 2).unwrap();
    list.push_reserved(5);
    assert_eq!((list.as_slice(), list.capacity()), (&[5][..], 2));
    assert!(list.try_grow(usize::MAX).is_err());
}

#[test]
fn failed_push_returns_item() {
    let mut list = vec![1];
    assert_eq!(failing(0, false, || list.try_push(2)), (Err(AllocFailed(2)), true));
    assert_eq!(AllocError::from(AllocFailed(2)), AllocError);
}

#[test]
fn sort_matches_rust() {
    for len in [0, 1, 2, 19, 20, 21, 300] {
        let list: Vec<(usize, usize)> = (0..len).map(|at| (at * 7919 % 13, at)).collect();
        let by_first = |a: &(usize, usize), b: &(usize, usize)| a.0.cmp(&b.0);
        let mut wanted = list.clone();
        wanted.sort_by(by_first);
        let failures = fail_each(
            || list.clone(),
            |sorted| sorted.try_sort_by(by_first),
            |sorted, failed| *sorted == if failed { list.clone() } else { wanted.clone() },
        );
        assert_eq!(failures, usize::from(len > 20));
    }
}

/// Runs itself as a process whose first allocation in `parse` fails.
#[cfg(feature = "std")]
#[test]
fn out_of_memory_ends_the_process() {
    if std::env::var_os("OUT_OF_MEMORY").is_some() {
        let options = getopts::Options::new();
        let _ = failing(0, true, || options.parse(["x"]));
        return;
    }
    let mut program = std::process::Command::new(std::env::current_exe().unwrap());
    program.args(["--exact", "out_of_memory_ends_the_process"]).env("OUT_OF_MEMORY", "");
    let done = program.output().unwrap();
    assert_eq!(String::from_utf8_lossy(&done.stderr), "memory allocation failed\n");
    assert!(!done.status.success());
}

/// Options with four groups and `more` others. Only sorting more than 20 names allocates.
fn options(more: usize) -> Options {
    let mut options = Options::new(Global);
    let mut add = |short: &str, long: &str, hasarg, occur| {
        let added = options.add_group(short, long, "what it does, in words", "HINT", hasarg, occur);
        assert_eq!(added, Ok(()));
    };
    add("o", "output", HasArg::Yes, Occur::Optional);
    add("v", "verbose", HasArg::No, Occur::Multi);
    add("L", "", HasArg::Yes, Occur::Multi);
    add("c", "color", HasArg::Maybe, Occur::Optional);
    for at in 0..more {
        add("", &format!("name-{at}"), HasArg::No, Occur::Optional);
    }
    options
}

const WORDS: [&str; 9] = ["-vofile", "free", "-La", "-L", "bcd", "--color=auto", "--", "-x", "y"];

fn matches() -> Matches {
    options(0).parse_words(Global, &WORDS).unwrap()
}

/// Checks that a parse reports each failed allocation as out of memory.
fn reports_failures<T>(options: &Options, read: impl Fn(&Options) -> Result<T, Fail>) {
    let of_memory =
        |result: &Result<T, Fail>| !matches!(result, Err(fail) if *fail != Fail::OutOfMemory);
    let failures = fail_each_of(options, |options| {
        let result = read(options);
        assert!(of_memory(&result));
        result
    });
    assert!(failures > 3);
}

#[test]
fn parse_reports_every_failed_allocation() {
    for more in [0, 30] {
        let options = options(more);
        reports_failures(&options, |o| o.parse_words(Global, &WORDS));
        reports_failures(&options, |o| o.parse(Global, WORDS.iter().copied()));
        reports_failures(&options, |o| o.parse_ignoring_counts(Global, &WORDS));
        reports_failures(&options, |o| o.canonical_words(Global, &WORDS));
        reports_failures(&options, |o| o.parse_in_order(Global, &WORDS));
        reports_failures(&options, |o| o.canonical(Global, WORDS.iter().copied()));
        assert!(fail_each_of(&options, |o| o.reader(Global).map(drop)) > 1);
    }
    let many = ["-vofile", "free"].repeat(2000);
    let floating = options(0).parse_ignoring_counts(Global, &many).unwrap();
    assert_eq!(floating.opt_count("v"), 2000);
}

#[test]
fn invalid_words_report_error_or_out_of_memory() {
    let options = options(0);
    for (line, wanted) in [
        ("-ox -ox", "output"),
        ("--nope", "nope"),
        ("-v=", "="),
        ("--verbose=x", "verbose"),
        ("-o", "o"),
    ] {
        let words: Vec<&str> = line.split(' ').collect();
        let by_two_calls = || {
            let matches = options.parse_ignoring_counts(Global, &words)?;
            matches.check_counts(Global).map(|()| matches)
        };
        let calls: [&dyn Fn() -> Result<Matches, Fail>; 2] =
            [&|| options.parse_words(Global, &words), &by_two_calls];
        for call in calls {
            for granted in 0.. {
                let (result, _) = failing(granted, false, call);
                let fail = result.unwrap_err();
                if !matches!(fail, Fail::OutOfMemory) {
                    assert!(granted > 0 && fail.to_string().contains(wanted), "{fail}");
                    assert_eq!(fail_each_of(&fail, |fail| fail.try_clone()), 1);
                    break;
                }
            }
        }
    }
}

#[test]
fn failed_declarations_leave_options_unchanged() {
    let add =
        |o: &mut Options| o.add_group("n", "number", "a number", "N", HasArg::Yes, Occur::Req);
    for more in [0, 4, 30] {
        let before = options(more);
        let mut after = before.try_clone().unwrap();
        assert_eq!(add(&mut after), Ok(()));
        let failures = fail_each(
            || before.try_clone().unwrap(),
            add,
            |seen, failed| *seen == *if failed { &before } else { &after },
        );
        assert!(failures > 0);
    }
}

#[test]
fn usage_and_clones_report_every_failed_allocation() {
    let options = options(3);
    assert!(fail_each_of(&options, |o| o.usage(Global, "Usage: program")) > 0);
    assert!(fail_each_of(&options, |o| o.usage_in(Global, "Usage: program", 40)) > 0);
    assert!(fail_each_of(&options, |o| o.short_usage(Global, "program")) > 0);
    assert!(fail_each_of(&options, |o| o.usage_rows(Global)) > 7);
    let last = |rows: UsageRows| Ok(rows.last().unwrap_or_default());
    assert!(fail_each_of(&options, |o| o.usage_with_format(Global, last)) > 7);
    assert!(fail_each_of(&options, |o| o.try_clone()) > 1);
    assert!(fail_each_of(&(), |()| each_split_within(Global, "Mary had a little lamb", 10)) > 2);
}

#[test]
fn matches_report_every_failed_allocation() {
    let matches = matches();
    let names = ["o", "L"].map(String::from);
    assert!(fail_each_of(&matches, |m| m.try_clone()) > 7);
    assert!(matches.try_clone() == Ok(self::matches()));
    assert_eq!(fail_each_of(&matches, |m| m.opt_str(Global, "o")), 1);
    assert_eq!(fail_each_of(&matches, |m| m.opt_default(Global, "c", "never")), 1);
    assert_eq!(fail_each_of(&matches, |m| m.opts_str(Global, &names)), 1);
    assert_eq!(fail_each_of(&matches, |m| m.opts_str_first(Global, &["o", "L"])), 1);
    assert_eq!(fail_each_of(&matches, |m| m.opt_positions(Global, "L")), 1);
    assert_eq!(fail_each_of(&matches, |m| m.opt_strs(Global, "L")), 3);
    assert_eq!(fail_each_of(&matches, |m| m.opt_strs_pos(Global, "L")), 3);
}

#[cfg(feature = "std")]
#[test]
fn failed_allocations_work_with_the_question_mark() {
    fn add() -> Result<(), Box<dyn std::error::Error>> {
        Options::new(Global).optflag("v", "", "")?;
        Ok(())
    }
    assert!(add().is_ok());
    assert_eq!(AllocError.to_string(), Fail::OutOfMemory.to_string());
}
