use pico_args::{Arguments, Error};

const HELP: &str = "Usage: join [options] FILE..

Options:
    -h, --help          print this help
    -o, --output NAME   set the output file
";

fn read() -> Result<(Vec<String>, Option<String>), Error> {
    let mut words = Arguments::from_env();
    if words.contains(["-h", "--help"]) {
        print!("{HELP}");
        std::process::exit(0)
    }
    let output = words.opt_value_from_str(["-o", "--output"])?;
    let (mut free, rest) = (Vec::new(), words.finish());
    for word in rest {
        free.push(word.into_string().map_err(|_| Error::NonUtf8Argument)?);
    }
    Ok((free, output))
}

fn main() {
    let (free, output) = read().unwrap_or_else(|error| {
        eprintln!("join: {error}");
        std::process::exit(2)
    });
    println!("{free:?} into {}", output.as_deref().unwrap_or("out.txt"));
}
