use getopts::{Fail, Options};

fn run() -> Result<(), Fail> {
    let mut options = Options::new();
    options
        .optflag("h", "help", "print this help")
        .optopt("o", "output", "set the output file", "NAME");
    let matches = options.parse_ignoring_counts(std::env::args_os().skip(1))?;
    if matches.opt_present("help") {
        print!("{}", options.usage("Usage: join [options] FILE.."));
        return Ok(());
    }
    matches.check_counts()?;
    println!("{:?} into {}", matches.free, matches.value("output").unwrap_or("out.txt"));
    Ok(())
}

fn main() {
    if let Err(fail) = run() {
        eprintln!("join: {fail}");
        std::process::exit(2);
    }
}
