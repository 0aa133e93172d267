//! The format of cases and answers: lines of a word and fields, separated by tabs.
//! `crates/getopts_vectors/src/main.rt` lists the lines.

/// Escapes a text for a field.
pub fn escaped(text: &str) -> String {
    text.replace('\\', "\\\\").replace('\t', "\\t").replace('\n', "\\n").replace('\r', "\\r")
}

/// The text of an escaped field.
fn text_of(field: &str) -> Option<String> {
    let mut text = String::with_capacity(field.len());
    let mut chars = field.chars();
    while let Some(c) = chars.next() {
        text.push(match c {
            '\\' => match chars.next()? {
                't' => '\t',
                'n' => '\n',
                'r' => '\r',
                '\\' => '\\',
                _ => return None,
            },
            '\r' => return None,
            c => c,
        });
    }
    Some(text)
}

/// A line: its word and its fields.
#[derive(Clone, Debug)]
pub struct Line(pub Vec<String>);

impl Line {
    /// The line as written, with a newline.
    pub fn written(&self) -> String {
        let fields: Vec<String> = self.0.iter().map(|part| escaped(part)).collect();
        fields.join("\t") + "\n"
    }

    /// Parses a line; `None` for comments, answers and empty lines.
    pub fn read(line: &str) -> Option<Line> {
        if line.is_empty() || line.starts_with(['#', '>', '|']) {
            return None;
        }
        let parts = line.split('\t').map(|field| text_of(field).expect("a valid escape"));
        Some(Line(parts.collect()))
    }

    pub fn word(&self) -> &str {
        &self.0[0]
    }

    pub fn fields(&self) -> &[String] {
        &self.0[1..]
    }
}

/// A line with its answer below it, each of whose lines begins with `> `. `case` has no answer.
pub fn row(line: &Line, answer: &str) -> String {
    let answered = if line.word() == "case" { "" } else { answer };
    answered.lines().fold(line.written(), |row, line| row + "> " + line + "\n")
}
