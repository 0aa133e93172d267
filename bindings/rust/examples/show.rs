//! Prints how its arguments were parsed, like the program `getopts_show`.

use getopts::{Matches, Options};
use std::process::ExitCode;

fn options() -> Options {
    let mut options = Options::new();
    options
        .optopt("o", "output", "set output file name", "NAME")
        .optflag("h", "help", "print this help menu")
        .optflagmulti("v", "verbose", "say more")
        .optmulti("L", "", "add a folder", "DIR")
        .optflagopt("c", "color", "colour the output", "WHEN");
    options
}

fn shown(matches: &Matches, line: &[String]) -> String {
    let mut text = String::new();
    for name in ["output", "help", "verbose", "L", "color"] {
        text += &format!("{name}: {}", matches.opt_count(name));
        let positions = matches.opt_positions(name).into_iter();
        text.extend(positions.map(|position| format!(" @{position}")));
        text += "\n";
        for (position, value) in matches.opt_strs_pos(name) {
            text += &format!("{name} @{position} = {value}\n");
        }
    }
    text.extend(matches.free.iter().map(|word| format!("free: {word}\n")));
    text.extend(line.iter().map(|word| format!("line: {word}\n")));
    text
}

fn main() -> ExitCode {
    let options = options();
    let words: Vec<_> = std::env::args_os().skip(1).collect();
    match options.parse(&words) {
        Ok(matches) if matches.opt_present("help") => {
            print!("{}", options.usage("Usage: getopts_show [options] FILE"));
            ExitCode::SUCCESS
        }
        Ok(matches) => {
            let line = options.canonical(&words).expect("accepted words");
            print!("{}", shown(&matches, &line.expect("plain main names")));
            ExitCode::SUCCESS
        }
        Err(fail) => {
            println!("getopts_show: {fail}");
            ExitCode::from(2)
        }
    }
}
