//! The Rust crate `getopts`.

use crate::input::{Args, Input, Kind, Named};
use crate::iterations;
use getopts::{Matches, Options};
use std::ffi::OsString;
use std::hint::black_box;

const BRIEF: &str = "Usage: getopts_show [options] FILE";

/// The sum of a job's iterations. `args` returns the words of an iteration.
pub fn run(
    job: &str,
    input: &Input,
    args: &mut dyn FnMut() -> Args,
    times: usize,
) -> Option<usize> {
    match job {
        "whole" => return Some(whole(input, args, times, taken)),
        "copied" => return Some(whole(input, args, times, copied)),
        #[cfg(feature = "over_ours")]
        "os" => return Some(over_ours::os(input, args, times)),
        #[cfg(feature = "over_ours")]
        "order" => return Some(over_ours::order(input, args, times)),
        #[cfg(feature = "over_ours")]
        "loop" => return Some(over_ours::one_at_a_time(input, args, times)),
        // Users of the crate parse the whole line.
        #[cfg(not(feature = "over_ours"))]
        "loop" => return Some(whole(input, args, times, taken)),
        _ => {}
    }
    let options = declared(&input.options);
    match job {
        "read" => Some(iterations(times, || matches_of(&options, args()).free.len())),
        "equal" => Some(equal(&options, input.args(), times)),
        "usage" => Some(iterations(times, || options.usage(BRIEF).len())),
        "defined" => Some(counted(&options, input, times, Matches::opt_defined)),
        "asked" => Some(counted(&options, input, times, Matches::opt_present)),
        "held" => Some(held(&options, input, times)),
        _ => None,
    }
}

fn whole(
    input: &Input,
    args: &mut dyn FnMut() -> Args,
    times: usize,
    taken: impl Fn(&Matches, &[Named]) -> usize,
) -> usize {
    iterations(times, || {
        let matches = matches_of(&declared(&input.options), args());
        taken(&matches, &input.options)
    })
}

fn equal(options: &Options, mut words: Args, times: usize) -> usize {
    let half = words.size_hint().0 / 2;
    let matches = matches_of(options, words.by_ref().take(half));
    let others = matches_of(options, words);
    iterations(times, || usize::from(black_box(&matches) == black_box(&others)))
}

/// The number of names for which the call returns true.
fn counted(
    options: &Options,
    input: &Input,
    times: usize,
    call: fn(&Matches, &str) -> bool,
) -> usize {
    let matches = matches_of(options, input.args());
    iterations(times, || {
        input.options.iter().filter(|option| call(&matches, option.main())).count()
    })
}

fn held(options: &Options, input: &Input, times: usize) -> usize {
    let mut kept = Vec::with_capacity(times);
    iterations(times, || {
        let matches = matches_of(options, input.args());
        let count = matches.free.len();
        kept.push(matches);
        count
    })
}

/// Options with these names, all repeatable except the last kind.
fn declared(named: &[Named]) -> Options {
    let mut options = Options::new();
    for option in named {
        match option.kind {
            Kind::Flag => options.optflagmulti(option.short, option.long, option.desc),
            Kind::Argument => options.optmulti(option.short, option.long, option.desc, option.hint),
            Kind::Maybe => options.optflagopt(option.short, option.long, option.desc, option.hint),
        };
    }
    options
}

fn matches_of(options: &Options, words: impl Iterator<Item = OsString>) -> Matches {
    options.parse(words).expect("the line is valid")
}

/// Adds up the matches with calls that copy the values.
fn copied(matches: &Matches, named: &[Named]) -> usize {
    let mut sum = total_length(&matches.free);
    for option in named {
        let name = option.main();
        sum += matches.opt_count(name) + total_length(&matches.opt_strs(name));
    }
    sum
}

/// The Rust crate has no calls that borrow the values.
#[cfg(not(feature = "over_ours"))]
use copied as taken;
#[cfg(feature = "over_ours")]
use over_ours::taken;

fn total_length(texts: &[String]) -> usize {
    texts.iter().map(String::len).sum()
}

/// Calls that only the replacement of the Rust crate has.
#[cfg(feature = "over_ours")]
mod over_ours {
    use super::{declared, iterations, total_length};
    use crate::input::{Args, Input, Named};
    use getopts::{Given, Matches};
    use std::ffi::OsString;

    /// Adds up the matches with a call that borrows the values.
    pub fn taken(matches: &Matches, named: &[Named]) -> usize {
        let mut sum = total_length(&matches.free);
        for option in named {
            for (_, value) in matches.occurrences(option.main()) {
                sum += 1 + value.map_or(0, str::len);
            }
        }
        sum
    }

    /// Each iteration declares the options, parses the words, and takes options and free words in
    /// order.
    pub fn order(input: &Input, args: &mut dyn FnMut() -> Args, times: usize) -> usize {
        iterations(times, || {
            let options = declared(&input.options);
            let given = options.parse_in_order(args()).expect("the line is valid");
            let lengths = given.iter().map(|given| match given {
                Given::Option { value, .. } => 1 + value.as_ref().map_or(0, String::len),
                Given::Free(word) => word.len(),
            });
            lengths.sum()
        })
    }

    /// The same in a loop over borrowed texts, into which a program first converts its words.
    pub fn one_at_a_time(input: &Input, args: &mut dyn FnMut() -> Args, times: usize) -> usize {
        iterations(times, || {
            let options = declared(&input.options);
            let words: Result<Vec<String>, _> = args().map(OsString::into_string).collect();
            let words = words.expect("words are UTF-8");
            let given = options.read(&words).map(|given| given.expect("the line is valid"));
            let lengths = given.map(|given| match given {
                Given::Option { value, .. } => 1 + value.map_or(0, str::len),
                Given::Free(word) => word.len(),
            });
            lengths.sum()
        })
    }

    /// Each iteration declares the options, parses the words as `OsString`s, and takes counts and
    /// values.
    pub fn os(input: &Input, args: &mut dyn FnMut() -> Args, times: usize) -> usize {
        iterations(times, || {
            let matches = declared(&input.options).parse_os(args()).expect("the line is valid");
            let mut sum = matches.free.iter().map(|word| word.len()).sum();
            for option in &input.options {
                for (_, value) in matches.occurrences(option.main()) {
                    sum += 1 + value.map_or(0, |value| value.len());
                }
            }
            sum
        })
    }
}
