//! The crate `clap`.

use crate::input::{Args, Input, Named};
use clap::{Arg, ArgAction, ArgMatches, Command};

const FREE: &str = "free";

/// Declares the options, parses the words, and adds up all counts and the lengths of values and
/// free words.
pub fn iteration(input: &Input, args: Args) -> usize {
    let matches = command(&input.options).get_matches_from(args);
    let mut sum = lengths(&matches, FREE).sum::<usize>();
    for option in &input.options {
        if option.is_flag() {
            sum += usize::from(matches.get_count(option.id));
        } else {
            sum += lengths(&matches, option.id).map(|length| 1 + length).sum::<usize>();
        }
    }
    sum
}

fn command(options: &[Named]) -> Command {
    let free = Arg::new(FREE).num_args(0..).action(ArgAction::Append);
    Command::new("peers")
        .no_binary_name(true)
        .disable_help_flag(true)
        .args(options.iter().map(argument))
        .arg(free)
}

fn argument(option: &Named) -> Arg {
    let mut argument = Arg::new(option.id).help(option.desc);
    argument = if option.is_flag() {
        argument.action(ArgAction::Count)
    } else {
        argument.action(ArgAction::Append).value_name(option.hint)
    };
    if let Some(short) = option.short.chars().next() {
        argument = argument.short(short);
    }
    if !option.long.is_empty() {
        argument = argument.long(option.long);
    }
    argument
}

/// The lengths of an argument's values.
fn lengths<'m>(matches: &'m ArgMatches, id: &str) -> impl Iterator<Item = usize> + 'm {
    matches.get_many::<String>(id).into_iter().flatten().map(String::len)
}
