//! `{:?}` of options and matches prints the same as in the crate getopts, except for positions.

use getopts::{Options, ParsingStyle};

// These texts were printed by the crate getopts 0.2.24.
#[test]
fn debug_of_options_matches_getopts() {
    let mut options = Options::new();
    options
        .optopt("o", "output", "set the output file", "NAME")
        .optflagmulti("v", "", "say more")
        .parsing_style(ParsingStyle::StopAtFirstFree)
        .long_only(true);
    assert_eq!(
        format!("{options:?}"),
        "Options { grps: [OptGroup { short_name: \"o\", long_name: \"output\", \
         hint: \"NAME\", desc: \"set the output file\", hasarg: Yes, occur: Optional }, \
         OptGroup { short_name: \"v\", long_name: \"\", hint: \"\", desc: \"say more\", \
         hasarg: No, occur: Multi }], parsing_style: StopAtFirstFree, long_only: true }"
    );
}

#[test]
fn debug_of_matches_matches_getopts() {
    let mut options = Options::new();
    options
        .optopt("o", "output", "", "NAME")
        .optflagmulti("v", "", "")
        .reqopt("", "input", "", "I")
        .optflagopt("w", "color", "", "WHEN");
    let matches = options.parse(["-vofile", "--input=x", "-wa", "--", "b"]);
    assert_eq!(
        format!("{:?}", matches.unwrap()),
        "Matches { opts: [Opt { name: Long(\"output\"), hasarg: Yes, occur: Optional, \
         aliases: [Opt { name: Short('o'), hasarg: Yes, occur: Optional, aliases: [] }] }, \
         Opt { name: Short('v'), hasarg: No, occur: Multi, aliases: [] }, \
         Opt { name: Long(\"input\"), hasarg: Yes, occur: Req, aliases: [] }, \
         Opt { name: Long(\"color\"), hasarg: Maybe, occur: Optional, \
         aliases: [Opt { name: Short('w'), hasarg: Maybe, occur: Optional, aliases: [] }] }], \
         vals: [[(0, Val(\"file\"))], [(0, Given)], [(1, Val(\"x\"))], [(2, Val(\"a\"))]], \
         free: [\"b\"], args_end: Some(0) }"
    );
    let fail = options.parse(["--nope"]);
    assert_eq!(format!("{fail:?}"), "Err(UnrecognizedOption(\"nope\"))");
}
