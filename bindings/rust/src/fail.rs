//! Errors.

use crate::Matches;
use crate::alloc::AllocError;
use crate::proved::Fail as Proved;
use std::error::Error;
use std::fmt;
use std::io::Write;

/// Why a command line was rejected.
///
/// `ArgumentMissing`, `UnrecognizedOption` and `UnexpectedArgument` report the first word that
/// can't be parsed, with the option's name as typed. Otherwise, `OptionMissing` and
/// `OptionDuplicated` report the first option, in order of declaration, that occurs the wrong
/// number of times, by its main name: the long name or, if there is none, the short one.
///
/// A message contains words as given, even control characters. If others choose the words, replace
/// these before a terminal or a log shows the message, as this example does.
///
/// ```
/// use getopts::{Fail, Options};
///
/// let mut options = Options::new();
/// options.reqopt("o", "output", "set the output file", "NAME");
/// let problem = |words: &[&str]| match options.parse(words) {
///     Ok(_) => "none".to_string(),
///     Err(Fail::UnrecognizedOption(name)) => format!("no option is called {name}"),
///     Err(fail) => fail.to_string().replace(char::is_control, "?"),
/// };
/// assert_eq!(problem(&["--ouput=a"]), "no option is called ouput");
/// assert_eq!(problem(&["in.txt"]), "Required option 'output' missing");
/// ```
#[derive(Clone, Debug, PartialEq, Eq)]
pub enum Fail {
    /// An option needs an argument, but the command line ends.
    ArgumentMissing(String),
    /// No option has this name. [`Options::parse`](crate::Options::parse) also reports a word that
    /// isn't UTF-8 this way, as `{:?}` prints it.
    UnrecognizedOption(String),
    /// A required option is missing.
    OptionMissing(String),
    /// An option that may occur once was given more than once.
    OptionDuplicated(String),
    /// An option that takes no argument was given one, as in `--verbose=x`.
    UnexpectedArgument(String),
}

/// The result of [`Options::parse`](crate::Options::parse): the matches of an accepted command
/// line, or why it was rejected.
pub type Result = std::result::Result<Matches, Fail>;

impl Error for Fail {}

/// Converts each error of the proved source to the one of the same name, and prints it by the
/// proved parts of its message.
macro_rules! conversions {
    ($($name:ident)*) => {
        impl Fail {
            pub(crate) fn of(fail: Proved) -> Fail {
                match fail {
                    $(Proved::$name(name) => Fail::$name(name),)*
                    Proved::OutOfMemory => out_of_memory(),
                }
            }
        }

        impl fmt::Display for Fail {
            fn fmt(&self, f: &mut fmt::Formatter<'_>) -> fmt::Result {
                let (unnamed, name) = match self {
                    $(Fail::$name(name) => (Proved::$name(String::new()), name),)*
                };
                let (before, _, after) = unnamed.parts();
                write!(f, "{before}{name}{after}")
            }
        }
    };
}
conversions!(ArgumentMissing UnrecognizedOption OptionMissing OptionDuplicated UnexpectedArgument);

/// Aborts the process, like any failed allocation in Rust. The size isn't known here.
#[cold]
fn out_of_memory() -> ! {
    let _ = std::io::stderr().write_all(b"memory allocation failed\n");
    std::process::abort()
}

/// Returns a result, or aborts if an allocation failed.
#[inline]
pub(crate) fn granted<T>(result: std::result::Result<T, AllocError>) -> T {
    result.unwrap_or_else(|_| out_of_memory())
}
