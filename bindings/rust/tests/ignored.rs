//! Ignoring results causes no warnings, as with the crate getopts.
#![deny(unused_must_use)]

use getopts::Options;

#[test]
fn results_may_be_ignored() {
    Options::new();
    let mut options = Options::new();
    options.optopt("o", "", "", "FILE");
    options.usage("brief");
    options.usage_in("brief", 40);
    options.short_usage("program");
    options.usage_with_format(|rows| rows.collect());
    let matches = options.parse(["-ofile", "--", "free"]).unwrap();
    matches.opt_defined("o");
    matches.opt_present("o");
    matches.opt_count("o");
    matches.opt_str("o");
    matches.opt_strs("o");
    matches.opt_strs_pos("o");
    matches.opt_positions("o");
    matches.opt_default("o", "");
    matches.opts_present(&[]);
    matches.opts_present_any(["o"]);
    matches.opts_str(&[]);
    matches.opts_str_first(["o"]);
    matches.free_trailing_start();
}
