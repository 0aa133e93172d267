//! The options and words of the jobs, from the same rows as `getopts_bench`.

use std::collections::BTreeMap;
use std::ffi::OsString;

/// The call that declares an option.
#[derive(Clone, Copy, PartialEq)]
pub enum Kind {
    Flag,
    Argument,
    Maybe,
}

/// An option to declare. All forms of its names are prepared before the first iteration.
pub struct Named {
    pub short: &'static str,
    pub long: &'static str,
    pub desc: &'static str,
    pub hint: &'static str,
    /// The names with their dashes. A missing name is only the dashes.
    pub dashed: [&'static str; 2],
    /// A unique name, for the peer that needs one.
    pub id: &'static str,
    pub kind: Kind,
    /// Whether it occurs more than once in the words.
    pub again: bool,
}

impl Named {
    fn new(fields: &'static str, kind: Kind) -> Named {
        let mut fields = fields.split('\t');
        let mut next = || fields.next().unwrap_or("");
        let (short, long, desc, hint) = (next(), next(), next(), next());
        Named {
            short,
            long,
            desc,
            hint,
            dashed: [kept(format!("-{short}")), kept(format!("--{long}"))],
            id: kept(format!("{short}/{long}")),
            kind,
            again: false,
        }
    }

    pub fn is_flag(&self) -> bool {
        self.kind == Kind::Flag
    }

    /// The long name if there is one, else the short name.
    pub fn main(&self) -> &'static str {
        if self.long.is_empty() {
            self.short
        } else {
            self.long
        }
    }
}

/// The text, leaked so that it lives as long as the program.
fn kept(text: String) -> &'static str {
    Box::leak(text.into_boxed_str())
}

/// Options to declare, and words to parse. A peer gets words only by value, as a program does.
#[derive(Default)]
pub struct Input {
    pub options: Vec<Named>,
    words: Vec<String>,
}

impl Input {
    /// Reads options and words from a file of rows.
    pub fn of(rows: &str) -> Option<Input> {
        let mut input = Input::default();
        for row in kept(std::fs::read_to_string(rows).ok()?).lines() {
            let (call, rest) = row.split_once('\t')?;
            match call {
                "words" => input.words.reserve_exact(rest.parse().ok()?),
                "word" => input.words.push(rest.to_string()),
                "optflagmulti" => input.options.push(Named::new(rest, Kind::Flag)),
                "optmulti" => input.options.push(Named::new(rest, Kind::Argument)),
                "optflagopt" => input.options.push(Named::new(rest, Kind::Maybe)),
                _ => return None,
            }
        }
        input.count();
        Some(input)
    }

    /// Finds the options that occur more than once, assuming that no option follows another in a
    /// cluster.
    fn count(&mut self) {
        let mut counts = BTreeMap::new();
        for word in &self.words {
            let name = match word.as_bytes() {
                [b'-', b'-', ..] => word.split('=').next(),
                [b'-', _, ..] => word.get(..2),
                _ => None,
            };
            *counts.entry(name).or_insert(0) += 1;
        }
        for option in &mut self.options {
            let given = option.dashed.map(|name| counts.get(&Some(name)).copied().unwrap_or(0));
            option.again = given.iter().sum::<usize>() > 1;
        }
    }

    /// A copy of the words, to be consumed.
    pub fn args(&self) -> Args {
        Args(self.words.iter().map(OsString::from).collect::<Vec<_>>().into_iter())
    }
}

/// Words as a program hands them over: `std::env::args_os().skip(1)`, which is an iterator over a
/// list, too. A plain `Vec` would let its list be reused.
#[derive(Clone)]
pub struct Args(std::vec::IntoIter<OsString>);

impl Iterator for Args {
    type Item = OsString;

    fn next(&mut self) -> Option<OsString> {
        self.0.next()
    }

    fn size_hint(&self) -> (usize, Option<usize>) {
        self.0.size_hint()
    }
}
