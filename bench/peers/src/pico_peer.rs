//! The crate `pico-args`, which searches for one option after the other.

use crate::input::{Args, Input, Named};
use pico_args::{Arguments, Keys};
use std::ffi::OsString;

/// Adds up all counts and the lengths of values and free words.
pub fn iteration(input: &Input, args: Args) -> usize {
    // `Arguments::from_env` collects the words, too.
    let mut arguments = Arguments::from_vec(args.collect());
    let mut sum = 0;
    for option in &input.options {
        if option.is_flag() {
            while arguments.contains(keys(option)) {
                sum += 1;
                if !option.again {
                    break;
                }
            }
        } else if !option.again {
            let value = arguments.opt_value_from_str(keys(option)).expect("the line is valid");
            sum += value.map_or(0, |value: String| 1 + value.len());
        } else {
            let values = arguments.values_from_str(keys(option)).expect("the line is valid");
            sum += values.iter().map(|value: &String| 1 + value.len()).sum::<usize>();
        }
    }
    let text = |word: OsString| word.into_string().expect("words are UTF-8");
    sum + arguments.finish().into_iter().map(|word| text(word).len()).sum::<usize>()
}

/// The names of an option, as the crate searches for them.
fn keys(option: &Named) -> Keys {
    let [short, long] = option.dashed;
    match (option.short, option.long) {
        ("", _) => long.into(),
        (_, "") => short.into(),
        _ => [short, long].into(),
    }
}
