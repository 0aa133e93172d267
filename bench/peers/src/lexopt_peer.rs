//! The crate `lexopt`, which returns one item at a time.
//!
//! `bench.py` writes `lines.rs`: the options of each line, each with a field name, the field's
//! type, and the pattern that users of `lexopt` would write.

use crate::input::Args;
use lexopt::Arg::{Long, Short, Value};
use lexopt::Parser;
use std::ffi::OsString;

/// Parses words, and adds up all counts and the lengths of values and free words.
pub type Iteration = fn(Args) -> usize;

/// The iteration for a line, by its name: a struct with a field for each option, and a `match` on
/// each item. In order, it stores nothing.
macro_rules! lines {
    ($($line:literal { $($field:ident: $held:ty = $option:pat,)* })*) => {
        pub fn iteration_of(line: &str) -> Option<Iteration> {
            match line {
                $($line => {
                    #[derive(Default)]
                    struct Given {
                        free: Vec<String>,
                        $($field: $held,)*
                    }
                    Some(|args| {
                        let mut given = Given::default();
                        let mut parser = Parser::from_args(args);
                        while let Some(item) = parser.next().expect("the line is valid") {
                            match item {
                                $($option => given.$field.hold(&mut parser),)*
                                Value(word) => given.free.push(text(word)),
                                _ => panic!("the option is declared"),
                            }
                        }
                        total_length(&given.free) $(+ given.$field.sum())*
                    })
                })*
                _ => None,
            }
        }
    };
    (in order $($line:literal { $($field:ident: $held:ty = $option:pat,)* })*) => {
        pub fn order_of(line: &str) -> Option<Iteration> {
            match line {
                $($line => Some(|args| {
                    let (mut sum, mut parser) = (0, Parser::from_args(args));
                    while let Some(item) = parser.next().expect("the line is valid") {
                        sum += match item {
                            $($option => <$held>::taken(&mut parser),)*
                            Value(word) => text(word).len(),
                            _ => panic!("the option is declared"),
                        };
                    }
                    sum
                }),)*
                _ => None,
            }
        }
    };
}

include!("lines.rs");

/// What a field stores of an option.
trait Held {
    /// Stores the option that the parser returned, with its value if it has one.
    fn hold(&mut self, parser: &mut Parser);

    /// Its count, and the lengths of its values.
    fn sum(&self) -> usize;

    /// What the option that the parser returned adds to that.
    fn taken(parser: &mut Parser) -> usize {
        1 + value(parser).len()
    }
}

/// A flag's count.
impl Held for usize {
    fn hold(&mut self, _parser: &mut Parser) {
        *self += 1;
    }

    fn sum(&self) -> usize {
        *self
    }

    fn taken(_parser: &mut Parser) -> usize {
        1
    }
}

/// An option's value.
impl Held for Option<String> {
    fn hold(&mut self, parser: &mut Parser) {
        *self = Some(value(parser));
    }

    fn sum(&self) -> usize {
        self.as_ref().map_or(0, |value| 1 + value.len())
    }
}

/// An option's values.
impl Held for Vec<String> {
    fn hold(&mut self, parser: &mut Parser) {
        self.push(value(parser));
    }

    fn sum(&self) -> usize {
        self.len() + total_length(self)
    }
}

fn value(parser: &mut Parser) -> String {
    text(parser.value().expect("there is a value"))
}

fn text(word: OsString) -> String {
    word.into_string().expect("words are UTF-8")
}

fn total_length(texts: &[String]) -> usize {
    texts.iter().map(String::len).sum()
}
