use getopts::Options;

fn main() {
    let mut options = Options::new();
    options
        .optflag("h", "help", "print this help")
        .optopt("o", "output", "set the output file", "NAME");
    let matches = options.parse(std::env::args_os().skip(1)).unwrap_or_else(|fail| {
        eprintln!("join: {fail}");
        std::process::exit(2)
    });
    if matches.opt_present("help") {
        print!("{}", options.usage("Usage: join [options] FILE.."));
        return;
    }
    println!("{:?} into {}", matches.free, matches.opt_str("output").unwrap_or("out.txt".to_string()));
}
