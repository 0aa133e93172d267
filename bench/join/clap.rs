use clap::{Arg, Command};

fn main() {
    let output = Arg::new("output").short('o').long("output").value_name("NAME").help("set the output file");
    let files = Arg::new("files").num_args(0..).value_name("FILE");
    let matches = Command::new("join").arg(output).arg(files).get_matches();
    let free: Vec<&String> = matches.get_many("files").into_iter().flatten().collect();
    println!("{free:?} into {}", matches.get_one::<String>("output").map_or("out.txt", String::as_str));
}
