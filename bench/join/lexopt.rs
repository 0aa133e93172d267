use lexopt::{Arg, Error, Parser};

const HELP: &str = "Usage: join [options] FILE..

Options:
    -h, --help          print this help
    -o, --output NAME   set the output file
";

fn read() -> Result<(Vec<String>, Option<String>), Error> {
    let (mut free, mut output, mut parser) = (Vec::new(), None, Parser::from_env());
    while let Some(arg) = parser.next()? {
        match arg {
            Arg::Short('h') | Arg::Long("help") => {
                print!("{HELP}");
                std::process::exit(0)
            }
            Arg::Short('o') | Arg::Long("output") => output = Some(parser.value()?.into_string()?),
            Arg::Value(word) => free.push(word.into_string()?),
            _ => return Err(arg.unexpected()),
        }
    }
    Ok((free, output))
}

fn main() {
    let (free, output) = read().unwrap_or_else(|error| {
        eprintln!("join: {error}");
        std::process::exit(2)
    });
    println!("{free:?} into {}", output.as_deref().unwrap_or("out.txt"));
}
