//! The program on the repository's README, in Rust. In Rattle, it is `crates/getopts_uses/src/join.rt`.

use getopts::Options;

fn main() {
    let mut options = Options::new();
    options
        .optopt("o", "output", "set output file name", "NAME")
        .optflagmulti("v", "verbose", "say more");
    match options.parse(std::env::args_os().skip(1)) {
        Ok(matches) => {
            let output = matches.opt_str("output");
            let verbosity = matches.opt_count("verbose");
            let files = &matches.free;
            println!("{files:?} to {output:?}, verbosity {verbosity}");
        }
        Err(fail) => println!("join: {fail}"),
    }
}
