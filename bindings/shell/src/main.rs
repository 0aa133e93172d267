//! Parses a shell script's arguments by a table of options, and prints code for the script to run.
//!
//! `program` is the proved source with its contracts erased, and uses the library's erased source.
//! `host` provides what the program needs from the system.
#![forbid(unsafe_code)]

mod host;

#[allow(unused, clippy::all)]
mod program;

fn main() -> std::process::ExitCode {
    program::main(host::HostRuntime::new())
}
