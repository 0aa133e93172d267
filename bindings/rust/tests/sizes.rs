//! Long command lines take little stack, and time in proportion to their length.
#![cfg(feature = "std")]

use getopts::{Fail, Options};
use std::thread;

/// Reads words of ten million bytes, a million flags in one word, and a million words.
fn read() {
    let mut options = Options::new();
    options.optflagmulti("v", "verbose", "").optmulti("o", "output", "", "");
    let long = "x".repeat(10_000_000);
    let words =
        [format!("-{}o{long}", "v".repeat(1_000_000)), format!("--output={long}"), long.clone()];
    let matches = options.parse(&words).unwrap();
    assert_eq!(matches.opt_count("verbose"), 1_000_000);
    assert!(matches.opt_strs("o") == [&*long, &*long] && matches.free == [&*long]);
    assert!(options.parse([format!("--{long}")]) == Err(Fail::UnrecognizedOption(long)));
    assert_eq!(options.parse(vec!["-v"; 1_000_000]).unwrap().opt_count("v"), 1_000_000);
    assert_eq!(options.parse(vec!["f"; 1_000_000]).unwrap().free.len(), 1_000_000);
}

#[test]
fn long_command_lines() {
    thread::Builder::new().stack_size(128 << 10).spawn(read).unwrap().join().unwrap();
}
