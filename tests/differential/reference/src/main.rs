//! Answers rows of `crates/getopts_vectors` with the Rust crate `getopts`.

mod answer;
mod form;
#[cfg(feature = "proved")]
mod laws;
mod options;

use std::process::ExitCode;

const USE: &str =
    "usage: reference answer ROWS     prints rows with answers, instead of those that they have
       reference laws ROWS       checks laws on rows, with the feature proved";

fn main() -> ExitCode {
    let words: Vec<String> = std::env::args().skip(1).collect();
    let text = words.get(1).map(|rows| std::fs::read_to_string(rows).expect("a file"));
    match (words.first().map(String::as_str), text) {
        (Some("answer"), Some(text)) => {
            // Rows ask about names on which the Rust crate panics, so panics aren't printed.
            std::panic::set_hook(Box::new(|_| {}));
            let mut session = answer::Session::default();
            for line in text.lines().filter_map(form::Line::read) {
                print!("{}", form::row(&line, &session.answer(&line)));
            }
        }
        #[cfg(feature = "proved")]
        (Some("laws"), Some(text)) => println!("{} lines", laws::check(&text)),
        _ => {
            eprintln!("{USE}");
            return ExitCode::from(2);
        }
    }
    ExitCode::SUCCESS
}
