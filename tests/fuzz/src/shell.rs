//! Runs the shell program in this process, on a table and words that contain code. Checks that the
//! output, which a script evaluates, only assigns quoted words to variables with the script's
//! prefix, and sets the operands to quoted words. If an allocation fails that it needs, the program
//! only reports that, and returns 3.
#![no_main]

#[path = "../../../bindings/rust/tests/heap/mod.rs"]
mod heap;

use heap::{Heap, exempt, failing};

#[allow(dead_code, unused_imports)]
#[rustfmt::skip]
#[path = "../../../bindings/shell/src/host.rs"]
mod real_host;

/// The program's host, with arguments and outputs in memory.
mod host {
    pub use super::real_host::*;
    use std::cell::RefCell;
    use std::rc::Rc;

    #[derive(Clone, Default)]
    pub struct Output(pub Rc<RefCell<Vec<u8>>>);

    impl std::io::Write for Output {
        fn write(&mut self, bytes: &[u8]) -> std::io::Result<usize> {
            // A pipe may accept only a part.
            let part = &bytes[..bytes.len().min(1000)];
            crate::exempt(|| self.0.borrow_mut().extend_from_slice(part));
            Ok(part.len())
        }
        fn flush(&mut self) -> std::io::Result<()> {
            Ok(())
        }
    }

    pub mod io {
        pub use std::io::*;
        pub fn writer(rt: &super::HostRuntime) -> super::Output {
            rt.out.clone()
        }
    }

    pub struct HostRuntime {
        pub words: Vec<Vec<u8>>,
        pub out: Output,
        pub err: Output,
    }

    impl HostRuntime {
        pub fn alloc(&self) -> alloc::Global {
            alloc::Global
        }
        pub fn stderr(&self) -> Output {
            self.err.clone()
        }
    }

    impl env::Env for HostRuntime {
        fn arg(&self, index: usize, buffer: &mut [u8]) -> Result<usize, env::FillError> {
            let word = self.words.get(index).ok_or(env::FillError::NotPresent)?;
            let buffer = buffer.get_mut(..word.len()).ok_or(env::FillError::TooLong)?;
            buffer.copy_from_slice(word);
            Ok(word.len())
        }
    }
}

#[allow(unused, clippy::all)]
#[rustfmt::skip]
#[path = "../../../bindings/shell/src/program/mod.rs"]
mod program;

#[global_allocator]
static HEAP: Heap = Heap;

/// The texts that the bytes 0x80 to 0xBF stand for: parts of tables, and words that a shell runs
/// unless they are quoted.
const PARTS: [&[u8]; 64] = [
    b"-a", b"--long", b"|--", b" FILE", b" [WHEN]", b"[", b"]", b"]..", b"]...", b"]!", b"\n",
    b"  ", b"\t", b"FILE..", b"[DEST]", b"SOURCE\n", b"--help", b"[-h|--help]\n", b"--version",
    b"[-v|--verbose]..\n", b"-o|--output FILE  text\n", b"[-L DIR]..\n", b"[-c|--color [WHEN]]\n",
    b"[-V|--version]!\n", b"#", b"'", b"\\", b"'\\''", b"$(touch canary)", b"`touch canary`",
    b"';touch canary;'", b"\ntouch canary\n", b"${x:=y}", b"$((canary[$(touch canary)]))", b"\xff",
    b"\x81\x5c", b"\xf4\x8f\xbe\x80", b"\xc3", b"\xe2\x80", b"\x1b]0;x\x07", b"\r", b"=", b"--",
    b"-", b"--long=", b"--output=", b"--color=", b"-va", b"&", b";", b"|", b">canary", b"*", b"~",
    b"!", b"\"", b"IFS", b"PATH", b"--I-F", b"_", b"\xc2\xa0", b"\xe3\x80\x80", b"--a-b\n--a_b\n",
    b"opt",
];

fn text_of(bytes: &[u8]) -> Vec<u8> {
    let part = |byte: &u8| match byte {
        0 => b"0".to_vec(),
        0x80..=0xBF => PARTS[*byte as usize - 0x80].to_vec(),
        _ => vec![*byte],
    };
    bytes.iter().flat_map(part).collect()
}

/// Reads the code that a script evaluates. Panics if the code does more than the manual describes.
struct Code<'c> {
    rest: &'c [u8],
    prefix: &'c [u8],
}

impl Code<'_> {
    fn take(&mut self, text: &[u8]) -> bool {
        let found = self.rest.starts_with(text);
        if found {
            self.rest = &self.rest[text.len()..];
        }
        found
    }

    fn needs(&mut self, text: &[u8]) {
        assert!(
            self.take(text),
            "no {:?} before {:?}",
            String::from_utf8_lossy(text),
            String::from_utf8_lossy(self.rest)
        );
    }

    fn quoted(&mut self) -> Vec<u8> {
        let mut word = Vec::new();
        self.needs(b"'");
        loop {
            let end =
                self.rest.iter().position(|byte| *byte == b'\'').expect("a quote isn't closed");
            word.extend_from_slice(&self.rest[..end]);
            self.rest = &self.rest[end + 1..];
            if !self.take(b"\\''") {
                return word;
            }
            word.push(b'\'');
        }
    }

    fn variable(&mut self) -> Vec<u8> {
        let end = self
            .rest
            .iter()
            .position(|byte| !byte.is_ascii_alphanumeric() && *byte != b'_')
            .expect("no end");
        let (name, rest) = self.rest.split_at(end);
        self.rest = rest;
        assert!(
            name.starts_with(self.prefix) && !name.is_empty() && !name[0].is_ascii_digit(),
            "variable"
        );
        let shells =
            self.prefix.is_empty() && name.len() > 1 && !name.iter().any(u8::is_ascii_lowercase);
        assert!(!shells, "a shell's variable: {}", String::from_utf8_lossy(name));
        name.to_vec()
    }

    /// Returns the words that the code sets, or none if it prints help.
    fn run(&mut self, variables: bool) -> Option<Vec<Vec<u8>>> {
        if self.take(b"\\printf %s ") {
            self.quoted();
            self.needs(b"; \\exit\n");
            assert!(self.rest.is_empty());
            return None;
        }
        let mut names: Vec<Vec<u8>> = Vec::new();
        while variables && self.take(b"\\unset -v ") {
            let name = self.variable();
            assert!(!names.contains(&name));
            self.needs(b"\n");
            let front = [&name[..], b"="].concat();
            if self.take(&front) {
                if self.take(b"(${") {
                    self.needs(&name);
                    self.needs(b"+} ");
                    while !self.take(b")") {
                        self.quoted();
                        self.take(b" ");
                    }
                } else {
                    self.quoted();
                }
                self.needs(b"\n");
            }
            names.push(name);
        }
        self.needs(b"\\set -- ");
        let mut words = Vec::new();
        while !self.take(b"\n") {
            words.push(self.quoted());
            self.take(b" ");
        }
        assert!(self.rest.is_empty());
        Some(words)
    }
}

/// Runs the program. The allocation after `count` others fails. Returns the exit status, standard
/// output, standard error, and whether an allocation failed.
fn call(words: &[Vec<u8>], count: usize) -> (u8, Vec<u8>, Vec<u8>, bool) {
    let (out, err) = (host::Output::default(), host::Output::default());
    let host = host::HostRuntime { words: words.to_vec(), out: out.clone(), err: err.clone() };
    let (status, failed) = failing(count, false, || program::main(host));
    // An `ExitCode` can only be printed.
    let status = (0..6)
        .find(|code| format!("{:?}", std::process::ExitCode::from(*code)) == format!("{status:?}"));
    (status.expect("another status"), out.0.take(), err.0.take(), failed)
}

fn run(input: &[u8]) {
    let [modes, nth, input @ ..] = input else { return };
    let has = |bit: u8| modes & bit != 0;
    let kind = modes >> 5;
    let mut fields = input.split(|byte| *byte == 0xFE).map(text_of);
    let (text, table) = (fields.next().unwrap(), fields.next().unwrap_or_default());
    let (variables, brief) = (has(4) || has(8), has(16));
    let prefix = if has(8) { &text[..] } else { b"opt_" };
    let shell = [&b"bash"[..], b"zsh", b"fish"][*nth as usize % 3];
    let given: [(bool, &[&[u8]]); 8] = [
        (has(1), &[b"--stop"]),
        (has(2), &[b"--long-only"]),
        (has(4), &[b"--arrays"]),
        (variables, &[b"--variables", prefix]),
        (brief, &[b"--brief", &text]),
        (kind == 1, &[b"--complete", shell]),
        (kind == 2, &[b"--complete-words", b"bash"]),
        (kind == 3, &[b"--usage"]),
    ];
    let options = given.iter().filter(|(is_given, _)| *is_given).flat_map(|(_, words)| *words);
    let name = if kind == 4 { fields.next().unwrap_or_default() } else { b"script".to_vec() };
    let mut words = vec![b"getopts_shell".to_vec()];
    words.extend(options.map(|word| word.to_vec()));
    words.extend([name.clone(), table]);
    words.extend(fields);
    let (status, out, err, _) = call(&words, usize::MAX);
    assert!(out.is_empty() || err.is_empty());
    assert!(out.is_empty() || status == 0);
    assert!(matches!(status, 0 | 2 | 5), "status {status}");
    assert!((status == 0) == err.is_empty());
    // Help texts and completion don't set words. A name that begins with a dash is an option.
    if status == 0 && !name.starts_with(b"-") && !(1..=3).contains(&kind) {
        let prefix = if variables { prefix } else { b"" };
        let set = Code { rest: &out, prefix }.run(variables);
        if let (Some(set), true) = (set, variables) {
            // The operands are words of the script, in order.
            let mut given = words.iter();
            assert!(set.iter().all(|word| given.any(|other| other == word)), "operands");
        }
    }
    let (other, part, errors, failed) = call(&words, *nth as usize % 60);
    // With more than 1,024 bytes of values, of which a mark has four, the program gives back memory
    // that it doesn't use. If that fails, it continues.
    let long = words.iter().map(Vec::len).sum::<usize>() > 1024 / 4;
    assert!(if other == 3 { failed } else { !failed || long }, "status {other}");
    assert!(if other == 3 {
        part.is_empty() && errors == b"getopts_shell: out of memory\n"
    } else {
        part == out && errors == err
    });
}

#[no_mangle]
extern "C" fn LLVMFuzzerTestOneInput(input: *const u8, len: usize) -> i32 {
    // A panic ends the process here.
    run(if len == 0 { &[] } else { unsafe { std::slice::from_raw_parts(input, len) } });
    0
}
