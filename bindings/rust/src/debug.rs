//! The `Debug` output of options and matches, which is the same as in the crate getopts, except for
//! positions.
// Only `Debug` reads the fields.
#![allow(dead_code)]

use crate::proved::matches::MatchedOptions;
use crate::{HasArg, Occur};

/// An option in matches: named by its long name, with the short name as an alias, or else by its
/// short name.
#[derive(Debug)]
pub struct Opt<'a> {
    name: Name<'a>,
    hasarg: HasArg,
    occur: Occur,
    aliases: Vec<Opt<'a>>,
}

#[derive(Debug)]
enum Name<'a> {
    Long(&'a str),
    Short(char),
}

pub(crate) fn opts_of(matches: &MatchedOptions) -> Vec<Opt<'_>> {
    let signatures = matches.signatures();
    let shown = |place| {
        let group = signatures.get(place);
        let kinds = group.kinds;
        let opt = |name, aliases| Opt { name, hasarg: kinds.kind, occur: kinds.occur, aliases };
        let short = group.short.chars().next().map(|short| opt(Name::Short(short), vec![]));
        match short {
            Some(short) if group.long.is_empty() => short,
            short => opt(Name::Long(group.long), short.into_iter().collect()),
        }
    };
    (0..signatures.len()).map(shown).collect()
}

/// An occurrence of an option, with or without a value.
#[derive(Debug)]
pub enum Optval<V> {
    Val(V),
    Given,
}
