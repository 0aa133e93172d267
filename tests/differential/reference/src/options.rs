//! The groups that a case declares.

use crate::form::Line;
use getopts::{HasArg, Occur, Options};

#[derive(Clone, Debug)]
pub struct Group {
    pub short: String,
    pub long: String,
    pub desc: String,
    pub hint: String,
    pub kind: HasArg,
    pub occur: Occur,
    /// The index in `CALLS` of the method that declares it.
    call: usize,
}

/// Adds a group with these names, this description and this hint.
type Add = fn(&mut Options, [&str; 4], &Group);

/// The methods that declare groups, each with its kind and occurrence kind. For `opt`, a line has
/// others.
#[rustfmt::skip]
pub const CALLS: &[(&str, HasArg, Occur, Add)] = &[
    ("opt", HasArg::No, Occur::Multi, by_opt),
    ("add_group", HasArg::No, Occur::Multi, by_opt),
    ("optflag", HasArg::No, Occur::Optional, |o, [s, l, d, _], _| _ = o.optflag(s, l, d)),
    ("optflagmulti", HasArg::No, Occur::Multi, |o, [s, l, d, _], _| _ = o.optflagmulti(s, l, d)),
    ("optflagopt", HasArg::Maybe, Occur::Optional,
        |o, [s, l, d, h], _| _ = o.optflagopt(s, l, d, h)),
    ("optmulti", HasArg::Yes, Occur::Multi, |o, [s, l, d, h], _| _ = o.optmulti(s, l, d, h)),
    ("optopt", HasArg::Yes, Occur::Optional, |o, [s, l, d, h], _| _ = o.optopt(s, l, d, h)),
    ("reqopt", HasArg::Yes, Occur::Req, |o, [s, l, d, h], _| _ = o.reqopt(s, l, d, h)),
];

fn by_opt(options: &mut Options, [short, long, desc, hint]: [&str; 4], group: &Group) {
    options.opt(short, long, desc, hint, group.kind, group.occur);
}

impl Group {
    /// The group that a line declares, if any.
    pub fn of_line(line: &Line) -> Option<Group> {
        let call = CALLS.iter().position(|call| call.0 == line.word())?;
        let (_, kind, occur, _) = CALLS[call];
        let field = |nth: usize| line.fields().get(nth).map_or("", String::as_str);
        let [short, long, desc, hint] = [0, 1, 2, 3].map(|nth| field(nth).to_string());
        let kind = match field(4) {
            "" => kind,
            "yes" => HasArg::Yes,
            "no" => HasArg::No,
            "maybe" => HasArg::Maybe,
            other => panic!("unknown kind {other}"),
        };
        let occur = match field(5) {
            "" => occur,
            "req" => Occur::Req,
            "optional" => Occur::Optional,
            "multi" => Occur::Multi,
            other => panic!("unknown occurrence {other}"),
        };
        Some(Group { short, long, desc, hint, kind, occur, call })
    }

    /// Adds the group to options.
    pub fn add(&self, options: &mut Options) {
        let texts = [&self.short, &self.long, &self.desc, &self.hint].map(String::as_str);
        CALLS[self.call].3(options, texts, self);
    }
}
