//! Prints a manual page from declared options: `manual >join.1` and then `man -l join.1`.

use getopts::{HasArg, Occur, OptGroup, Options};

fn options() -> Options {
    let mut options = Options::new();
    options
        .reqopt("o", "output", "write to FILE", "FILE")
        .optmulti("I", "", "look into DIR, too", "DIR")
        .optflagopt("", "color", "colour the output: 'always', ~never~ or `auto`", "WHEN")
        .optflagmulti("v", "verbose", ".\\say more, twice ^ as much with -vv")
        .optflag("h", "help", "print this help");
    options
}

/// A text that troff prints as it is.
fn plain(text: &str) -> String {
    const ESCAPES: [(char, &str); 7] = [
        ('\\', "\\e"),
        ('-', "\\-"),
        ('\'', "\\(aq"),
        ('`', "\\(ga"),
        ('^', "\\(ha"),
        ('~', "\\(ti"),
        ('\n', " "),
    ];
    let escape = |text: String, (char, escape)| text.replace(char, escape);
    ESCAPES.into_iter().fold(text.to_string(), escape)
}

/// The names of an option, and its argument.
fn head(option: OptGroup<'_>) -> String {
    let dashed = [("-", option.short_name), ("--", option.long_name)].into_iter();
    let names = dashed.filter(|(_, name)| !name.is_empty());
    let names: Vec<_> = names.map(|(dash, name)| plain(&[dash, name].concat())).collect();
    let (names, hint) = (names.join("\\fP, \\fB"), plain(option.hint));
    match option.hasarg {
        HasArg::No => format!("\\fB{names}\\fP"),
        HasArg::Yes => format!("\\fB{names}\\fP \\fI{hint}\\fP"),
        HasArg::Maybe => format!("\\fB{names}\\fP [\\fI{hint}\\fP]"),
    }
}

fn main() {
    let options = options();
    let usage = options.short_usage("join");
    println!(".TH JOIN 1 \"\" \"join 1.0\"\n.SH NAME\njoin \\- join files\n.SH SYNOPSIS");
    println!("{}\n.SH OPTIONS", plain(usage.trim_start_matches("Usage: ")));
    for option in options.iter() {
        let occurs = match option.occur {
            Occur::Req => " (required)",
            Occur::Optional => "",
            Occur::Multi => " (may be repeated)",
        };
        // Without `\&`, a dot at the beginning would be a command.
        println!(".TP\n{}\n\\&{}{occurs}", head(option), plain(option.desc));
    }
}
