//! The Rust crate's answers to the lines of cases.

use crate::form::Line;
use crate::options::{Group, CALLS};
use getopts::{Fail, Matches, Options, ParsingStyle};
use std::fmt::Display;
use std::panic::catch_unwind;
use std::process::exit;
use std::str::FromStr;

/// Options, and the result of the last words.
#[derive(Clone, Default)]
struct Side {
    options: Options,
    read: Option<getopts::Result>,
}

impl Side {
    /// The result of the last words.
    fn result(&self) -> String {
        match &self.read {
            Some(Ok(matches)) => {
                let start = matches.free_trailing_start().map(|start| start.to_string());
                line(&["accepted", start.as_deref().unwrap_or("-")], matches.free.clone())
            }
            Some(Err(fail)) => line(&["refused"], error_fields(fail)),
            None => line(&["clear", "nothing"], []),
        }
    }
}

/// The state of a case.
#[derive(Default)]
pub struct Session {
    side: Side,
    kept: Option<Side>,
}

/// `-` without a value, else `=` and the value.
fn optional(value: Option<impl Display>) -> String {
    value.map_or("-".to_string(), |value| format!("={value}"))
}

fn line(head: &[&str], rest: impl IntoIterator<Item = String>) -> String {
    Line(head.iter().map(|field| field.to_string()).chain(rest).collect()).written()
}

impl Session {
    /// Executes a line, and returns its answer.
    pub fn answer(&mut self, asked: &Line) -> String {
        let fields = asked.fields();
        let options = &mut self.side.options;
        let f = |nth: usize| fields[nth].as_str();
        match asked.word() {
            "case" => {
                *self = Session::default();
                return asked.written();
            }
            "keep" => self.kept = Some(self.side.clone()),
            "anew" => self.side = Side::default(),
            "style" => match f(0) {
                "floating" => _ = options.parsing_style(ParsingStyle::FloatingFrees),
                "stop" => _ = options.parsing_style(ParsingStyle::StopAtFirstFree),
                other => panic!("unknown style {other}"),
            },
            "mode" => match f(0) {
                "ordinary" => _ = options.long_only(false),
                "long-only" => _ = options.long_only(true),
                other => panic!("unknown mode {other}"),
            },
            "words" => self.side.read = Some(options.parse(fields)),
            #[cfg(feature = "canonical")]
            "ignoring_counts" => self.side.read = Some(options.parse_ignoring_counts(fields)),
            #[cfg(feature = "canonical")]
            "check_counts" => {
                let read = options.parse_ignoring_counts(fields);
                self.side.read = Some(read.and_then(|read| read.check_counts().map(|()| read)));
            }
            "clear" => {
                if let Some(Ok(matches)) = &mut self.side.read {
                    matches.free.clear();
                }
            }
            "same" => return self.same(f(0)),
            _ => match Group::of_line(asked) {
                Some(group) => group.add(options),
                None => return self.ask(asked),
            },
        }
        match asked.word() {
            "words" | "ignoring_counts" | "check_counts" | "clear" => self.side.result(),
            _ => String::new(),
        }
    }

    fn same(&self, what: &str) -> String {
        let kept = self.kept.as_ref().expect("a kept side");
        let same = match what {
            "options" => kept.options == self.side.options,
            "answers" => kept.read == self.side.read,
            other => panic!("unknown: {other}"),
        };
        line(&["same", what], [same.to_string()])
    }

    /// Answers a question about the options.
    fn ask(&self, asked: &Line) -> String {
        let options = &self.side.options;
        match (asked.word(), asked.fields()) {
            ("lawful", [short, long]) => line(&["lawful"], [names_lawful(short, long).to_string()]),
            #[cfg(feature = "canonical")]
            ("canonical", words) => canonical(options, words),
            ("short", [program]) => line(&["short"], [options.short_usage(program)]),
            ("usage", [brief]) => line(&["usage"], [options.usage(brief)]),
            ("rows", []) => {
                let mut given = Vec::new();
                let made = options.usage_with_format(|rows| {
                    given = rows.collect();
                    format!("{} rows", given.len())
                });
                line(&["rows", &made], given)
            }
            ("error", []) => match &self.side.read {
                Some(Err(fail)) => line(&["error"], [fail.to_string()]),
                _ => line(&["error", "nothing"], []),
            },
            (word, _) if !OF_MATCHES.contains(&word) => {
                eprintln!("reference: this crate can't answer the line '{word}'");
                exit(2);
            }
            _ => match &self.side.read {
                Some(Ok(matches)) => ask_of_matches(matches, asked),
                _ => line(&[asked.word(), "nothing"], []),
            },
        }
    }
}

/// The words of lines that ask about matches.
#[rustfmt::skip]
const OF_MATCHES: [&str; 13] = [
    "any", "number", "opt_count", "opt_default", "opt_defined", "opt_positions", "opt_present",
    "opt_str", "opt_strs", "opt_strs_pos", "option", "positions", "truth",
];

#[cfg(feature = "canonical")]
fn canonical(options: &Options, words: &[String]) -> String {
    match options.canonical(words) {
        Ok(Some(written)) => line(&["canonical", "line"], written),
        Ok(None) => line(&["canonical", "none"], []),
        Err(fail) => line(&["canonical", "refused"], error_fields(&fail)),
    }
}

/// The kind of an error and its name.
fn error_fields(fail: &Fail) -> [String; 2] {
    let (variant, name) = match fail {
        Fail::ArgumentMissing(name) => ("ArgumentMissing", name),
        Fail::UnrecognizedOption(name) => ("UnrecognizedOption", name),
        Fail::OptionMissing(name) => ("OptionMissing", name),
        Fail::OptionDuplicated(name) => ("OptionDuplicated", name),
        Fail::UnexpectedArgument(name) => ("UnexpectedArgument", name),
    };
    [variant.to_string(), name.clone()]
}

/// Answers a question about matches.
fn ask_of_matches(matches: &Matches, asked: &Line) -> String {
    if asked.word() == "any" {
        return any(matches, asked.fields());
    }
    let name = asked.fields()[0].as_str();
    let head = &[asked.word(), name];
    let defined = matches.opt_defined(name);
    if asked.word() == "opt_defined" {
        return line(head, [defined.to_string()]);
    }
    if !defined {
        return line(head, ["undefined".to_string()]);
    }
    match (asked.word(), &asked.fields()[1..]) {
        ("opt_present", []) => line(head, [matches.opt_present(name).to_string()]),
        ("opt_count", []) => line(head, [matches.opt_count(name).to_string()]),
        ("opt_str", []) => line(head, [optional(matches.opt_str(name))]),
        ("opt_strs", []) => line(head, matches.opt_strs(name)),
        ("opt_strs_pos", []) => line(head, pairs(matches, name)),
        ("opt_positions", []) => line(head, positions(matches, name)),
        ("opt_default", [default]) => {
            let value = optional(matches.opt_default(name, default));
            line(head, [default.clone(), value])
        }
        ("option", [default]) => {
            let present = if matches.opt_present(name) { "present" } else { "absent" };
            let of_option = [
                present.to_string(),
                matches.opt_count(name).to_string(),
                optional(matches.opt_str(name)),
                optional(matches.opt_default(name, default)),
            ];
            let texts = matches.opt_strs_pos(name).into_iter().map(|(_, text)| text);
            line(head, of_option)
                + &line(&["strs"], matches.opt_strs(name))
                + &line(&["pairs"], texts)
        }
        ("positions", []) => {
            line(head, positions(matches, name)) + &line(&["pairs"], pairs(matches, name))
        }
        ("number", [default]) => line(head, got::<i32>(matches, name, default)),
        ("truth", [default]) => line(head, got::<bool>(matches, name, default)),
        _ => panic!("unknown line {asked:?}"),
    }
}

/// A converted value, without and with a default.
fn got<T: FromStr + Display>(matches: &Matches, name: &str, default: &str) -> [String; 2] {
    let default = default.parse::<T>().ok().expect("a default");
    let (value, or) = (matches.opt_get::<T>(name), matches.opt_get_default(name, default));
    let error = || "error".to_string();
    [value.map_or_else(|_| error(), optional), or.map_or_else(|_| error(), |it| it.to_string())]
}

fn positions(matches: &Matches, name: &str) -> Vec<String> {
    let positions = matches.opt_positions(name).into_iter();
    positions.map(|position| position.to_string()).collect()
}

/// The positions and texts of values.
fn pairs(matches: &Matches, name: &str) -> Vec<String> {
    let pairs = matches.opt_strs_pos(name).into_iter();
    let fields = pairs.flat_map(|(position, text)| [position.to_string(), text]);
    fields.collect()
}

/// Answers a question about several names. Calls that panic on an undefined name are made only if
/// all names are defined.
fn any(matches: &Matches, names: &[String]) -> String {
    let head = &["any", &matches.opts_present(names).to_string()];
    if !names.iter().all(|name| matches.opt_defined(name)) {
        return line(head, ["undefined".to_string()]);
    }
    let all = [
        matches.opts_present_any(names).to_string(),
        optional(matches.opts_str(names)),
        optional(matches.opts_str_first(names)),
    ];
    line(head, all)
}

/// Whether the Rust crate accepts these names: no panic in adding them and parsing. All methods
/// have to agree.
fn names_lawful(short: &str, long: &str) -> bool {
    let taken = CALLS.iter().map(|(call, ..)| {
        let fields = [call, short, long].map(String::from).to_vec();
        catch_unwind(move || {
            let mut options = Options::new();
            Group::of_line(&Line(fields)).expect("a group").add(&mut options);
            let _ = options.parse(Vec::<String>::new());
        })
        .is_ok()
    });
    let taken: Vec<bool> = taken.collect();
    assert!(taken.iter().all(|one| *one == taken[0]), "all methods agree on names");
    taken[0]
}
