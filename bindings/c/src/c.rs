//! The boundary to C: its heap, texts, tables and words, and the functions of `getopts.h`. Comments
//! justify the `unsafe` blocks, mostly by requirements of that header.
#![allow(unsafe_code)]
#![deny(unsafe_op_in_unsafe_fn)]

use crate::options::{Declared, Getopts, Last, NOTHING, OUT_OF_MEMORY};
use crate::reading::{Given, none};
use crate::{AllocResult, NO_MEMORY, OK, Status};
use core::alloc::{GlobalAlloc, Layout};
use core::ffi::{c_int, c_long, c_uint};
use core::mem::{ManuallyDrop, size_of};
use core::{ptr, slice};
use library::alloc::Global;
use library::bytes::plain_text;
use library::fallible::String;
use library::proved::{Matches, Options, Reader};

/// A C string, or NULL.
pub type Text = *const u8;

extern "C" {
    fn malloc(bytes: usize) -> *mut u8;
    fn realloc(block: *mut u8, bytes: usize) -> *mut u8;
    fn free(block: *mut u8);
    fn strlen(text: Text) -> usize;
    fn write(file: c_int, bytes: *const u8, count: usize) -> isize;
    fn abort() -> !;
}

/// The C heap. Its blocks are aligned for everything that this crate stores: numbers and pointers.
struct Heap;

#[global_allocator]
static HEAP: Heap = Heap;

// SAFETY: the functions of C have the same contracts, for these alignments.
unsafe impl GlobalAlloc for Heap {
    unsafe fn alloc(&self, layout: Layout) -> *mut u8 {
        unsafe { malloc(layout.size()) }
    }
    unsafe fn dealloc(&self, block: *mut u8, _: Layout) {
        unsafe { free(block) }
    }
    unsafe fn realloc(&self, block: *mut u8, _: Layout, bytes: usize) -> *mut u8 {
        unsafe { realloc(block, bytes) }
    }
}

#[panic_handler]
fn panic(_: &core::panic::PanicInfo<'_>) -> ! {
    // SAFETY: `abort` has no requirements.
    unsafe { abort() }
}

/// Bytes as text, if they are UTF-8 below U+10FF80.
pub fn text(bytes: &[u8]) -> Option<&str> {
    if bytes.is_ascii() {
        // SAFETY: ASCII is UTF-8.
        Some(unsafe { core::str::from_utf8_unchecked(bytes) })
    } else {
        other_text(bytes)
    }
}

// Inlined, it would fill `getopts_new`.
#[cold]
#[inline(never)]
fn other_text(bytes: &[u8]) -> Option<&str> {
    plain_text(bytes)
}

/// The bytes of a C string, if it isn't NULL.
unsafe fn bytes<'c>(text: Text) -> Option<&'c [u8]> {
    // SAFETY: strings end with a zero byte, and don't change during the call that they are passed
    // to.
    (!text.is_null()).then(|| unsafe { slice::from_raw_parts(text, strlen(text)) })
}

/// A row of a table: its short name, long name, hint and description, and its kind.
#[repr(C)]
#[derive(Clone, Copy)]
pub struct Row<T> {
    pub texts: [T; 4],
    pub kind: c_uint,
}

/// The rows of a table, up to the one with two names that are NULL.
#[derive(Clone)]
struct Rows(*const Row<Text>);

impl Iterator for Rows {
    type Item = Row<&'static [u8]>;
    fn next(&mut self) -> Option<Self::Item> {
        // SAFETY: rows are read up to the last one, whose names are NULL; the rest of that one may
        // be uninitialized. Nothing outlives the call, although the lifetime is `'static`:
        // `Getopts::new` copies the strings.
        unsafe {
            if (*self.0).texts[0].is_null() && (*self.0).texts[1].is_null() {
                return None;
            }
            let Row { texts, kind } = *self.0;
            self.0 = self.0.add(1);
            let texts = texts.map(|text| bytes(text).unwrap_or(&[]));
            Some(Row { texts, kind })
        }
    }
}

/// C strings, none of them NULL.
#[derive(Clone, Copy)]
pub struct Words<'c>(&'c [Text]);

impl<'c> Words<'c> {
    /// `None` if a word is NULL.
    unsafe fn of(count: c_int, words: *const Text) -> Option<Words<'c>> {
        let count = usize::try_from(count).unwrap_or(0);
        if count == 0 {
            return Some(Words(&[]));
        }
        // SAFETY: there are `count` words, or an earlier one is NULL.
        unsafe {
            let valid = !words.is_null() && (0..count).all(|nth| !(*words.add(nth)).is_null());
            valid.then(|| Words(slice::from_raw_parts(words, count)))
        }
    }

    pub fn len(self) -> usize {
        self.0.len()
    }

    /// The nth word, or an empty one if there are fewer.
    pub fn get(self, nth: usize) -> &'c [u8] {
        // SAFETY: words are strings.
        self.0.get(nth).and_then(|word| unsafe { bytes(*word) }).unwrap_or(&[])
    }

    pub fn iter(self) -> impl Iterator<Item = &'c [u8]> {
        (0..self.len()).map(move |nth| self.get(nth))
    }
}

/// Texts, each followed by a zero byte, as a block for `getopts_free`: a pointer to each text,
/// NULL, and the texts.
fn line_of(texts: &[u8], count: usize) -> *mut *mut u8 {
    // SAFETY: the block is large enough for the pointers and the texts, and there are `count` zero
    // bytes.
    unsafe {
        let line = malloc((count + 1) * size_of::<Text>() + texts.len()).cast::<*mut u8>();
        if !line.is_null() {
            let mut text = line.add(count + 1).cast::<u8>();
            ptr::copy_nonoverlapping(texts.as_ptr(), text, texts.len());
            for nth in 0..count {
                line.add(nth).write(text);
                text = text.add(strlen(text) + 1);
            }
            line.add(count).write(ptr::null_mut());
        }
        line
    }
}

/// Stores a result where C asks for it, unless that is NULL. What was there may be uninitialized.
///
/// # Safety
/// C may write there.
unsafe fn store<T>(to: *mut T, result: T) {
    if !to.is_null() {
        // SAFETY: as required.
        unsafe { to.write(result) }
    }
}

#[no_mangle]
unsafe extern "C" fn getopts_new(table: *const Row<Text>, modes: c_uint) -> *mut Getopts {
    let rows = (!table.is_null()).then_some(Rows(table));
    // SAFETY: a block that isn't NULL is large enough for the options.
    unsafe {
        let options = malloc(size_of::<Getopts>()).cast::<Getopts>();
        if !options.is_null() {
            match Getopts::new(rows, modes) {
                Ok(made) => options.write(made),
                Err(_) => {
                    free(options.cast());
                    return ptr::null_mut();
                }
            }
        }
        options
    }
}

#[no_mangle]
unsafe extern "C" fn getopts_delete(options: *mut Getopts) {
    if !options.is_null() {
        // SAFETY: `getopts_new` created them, and they haven't been deleted.
        unsafe {
            options.drop_in_place();
            free(options.cast());
        }
    }
}

// The functions below require options that `getopts_new` returned and that haven't been deleted, or
// NULL, and strings that end with a zero byte.

/// The two parts of options. The first is borrowed as if for ever, by a reader in the second.
unsafe fn parts<'o>(options: *mut Getopts) -> Option<(&'static Declared, &'o mut Last)> {
    // SAFETY: options stay where they are until they are deleted, and only `Last` ever changes.
    (!options.is_null()).then(|| unsafe { (&(*options).declared, &mut (*options).last) })
}

#[no_mangle]
unsafe extern "C" fn getopts_read(
    options: *mut Getopts,
    count: c_int,
    words: *const Text,
) -> Status {
    // SAFETY: as above. The words may belong to the previous reading: nothing uses them after it is
    // replaced.
    unsafe {
        let Some((declared, last)) = parts(options) else { return NO_MEMORY };
        last.read(declared, Words::of(count, words))
    }
}

#[no_mangle]
unsafe extern "C" fn getopts_canonical(
    options: Option<&Getopts>,
    count: c_int,
    words: *const Text,
    line: *mut *mut *mut u8,
) -> Status {
    // SAFETY: as above.
    unsafe {
        store(line, ptr::null_mut());
        let Some(options) = options else { return NO_MEMORY };
        let (texts, count) = match options.declared.canonical(Words::of(count, words)) {
            Ok(Some(made)) if !line.is_null() => made,
            Ok(_) => return OK,
            Err(error) => return error.status(),
        };
        line.write(line_of(&texts, count));
        if (*line).is_null() { NO_MEMORY } else { OK }
    }
}

/// A `struct getopts_unread`.
#[repr(C)]
pub struct Unread {
    pub count: c_int,
    pub words: *const Text,
    pub names: Text,
    pub free_words: *const Text,
}

#[no_mangle]
unsafe extern "C" fn getopts_next(
    options: *mut Getopts,
    unread: &mut Unread,
    value: *mut Text,
) -> c_int {
    // SAFETY: as above. The names are a string, or NULL.
    unsafe {
        let (row, text) = match parts(options) {
            Some((declared, last)) => {
                let words = declared.valid(Words::of(unread.count.min(2), unread.words));
                let given = words.and_then(|words| {
                    let bytes = [bytes(unread.names).unwrap_or(&[]), words.get(0), words.get(1)];
                    Ok(last.next(declared, unread, bytes, words.len())?)
                });
                last.report(given.as_ref().err());
                given.unwrap_or((-1, ptr::null()))
            }
            None => (-1, ptr::null()),
        };
        store(value, text);
        row
    }
}

#[no_mangle]
extern "C" fn getopts_status(options: Option<&Getopts>) -> Status {
    options.map_or(NO_MEMORY, |options| options.last.status)
}

#[no_mangle]
extern "C" fn getopts_message(options: Option<&Getopts>) -> Text {
    options.map_or(OUT_OF_MEMORY.as_ptr(), |options| options.last.message)
}

#[no_mangle]
extern "C" fn getopts_message_name(options: Option<&Getopts>) -> Text {
    options.map_or(NOTHING.as_ptr(), |options| options.last.name)
}

// Threads may share what `Getopts` contains: the library's types, and pointers to its own texts.
const _: () = {
    const fn shared<T: Sync>() {}
    shared::<Options>();
    shared::<Matches>();
    shared::<Reader<'_>>();
};

#[no_mangle]
unsafe extern "C" fn getopts_defined(options: Option<&Getopts>, name: Text) -> bool {
    // SAFETY: as above, also in the functions below.
    let name = unsafe { bytes(name) };
    options.map_or(false, |options| options.declared.declares(name))
}

/// Ends the program after a message.
#[cold]
fn end(parts: &[&[u8]]) -> ! {
    for part in parts {
        // SAFETY: the part has this many bytes.
        unsafe { write(2, part.as_ptr(), part.len()) };
    }
    // SAFETY: `abort` has no requirements.
    unsafe { abort() }
}

/// Ends the program if strict options have no option of this name.
#[cold]
fn check_name(options: Option<&Getopts>, name: Option<&[u8]>) {
    if options.map_or(false, |options| options.declared.misses(name)) {
        end(&[b"getopts.h: no option has the name '", name.unwrap_or(b"NULL"), b"'\n"]);
    }
}

/// What was given of an option.
#[inline(always)]
unsafe fn given(options: Option<&Getopts>, name: Text) -> Option<Given<'_>> {
    let name = unsafe { bytes(name) };
    let given = options.and_then(|options| options.given(name));
    if given.is_none() {
        check_name(options, name);
    }
    given
}

#[no_mangle]
unsafe extern "C" fn getopts_count(options: Option<&Getopts>, name: Text) -> usize {
    unsafe { given(options, name) }.map_or(0, |given| given.count)
}

#[no_mangle]
unsafe extern "C" fn getopts_position(options: Option<&Getopts>, name: Text, nth: usize) -> c_int {
    let position = unsafe { given(options, name) }.and_then(|given| given.position(nth));
    position.map_or(-1, |position| position as c_int)
}

#[no_mangle]
unsafe extern "C" fn getopts_value(options: Option<&Getopts>, name: Text, nth: usize) -> Text {
    unsafe { given(options, name) }.and_then(|given| given.value(nth)).unwrap_or(ptr::null())
}

#[no_mangle]
unsafe extern "C" fn getopts_long_value(
    options: Option<&Getopts>,
    name: Text,
    nth: usize,
    value: *mut c_long,
) -> bool {
    // SAFETY: a reading returns a string or NULL, and the value may be written to.
    unsafe {
        let Some(text) = bytes(getopts_value(options, name, nth)) else { return true };
        let number = core::str::from_utf8(text).map(str::parse);
        if let Ok(Ok(number)) = number {
            store(value, number);
        }
        matches!(number, Ok(Ok(_)))
    }
}

#[no_mangle]
extern "C" fn getopts_free_count(options: Option<&Getopts>) -> c_int {
    options.map_or(0, |options| options.last.reading.free_count() as c_int)
}

#[no_mangle]
extern "C" fn getopts_free_words(options: Option<&Getopts>) -> *const Text {
    options.map_or(none(), |options| options.last.reading.free_words())
}

#[no_mangle]
extern "C" fn getopts_trailing_start(options: Option<&Getopts>) -> c_int {
    let start = options.and_then(|options| options.last.reading.trailing_start());
    start.map_or(-1, |start| start as c_int)
}

// C has a function of its own: on Windows, its `free` may belong to another C library than ours.
#[no_mangle]
unsafe extern "C" fn getopts_free(block: *mut u8) {
    // SAFETY: `malloc` or `realloc` returned it, or it is NULL.
    unsafe { free(block) }
}

/// A usage text that a call makes for `start`, as a block for `getopts_free`.
fn usage(
    options: Option<&Getopts>,
    start: Option<&[u8]>,
    make: impl FnOnce(&Declared, &str) -> AllocResult<String>,
) -> *mut u8 {
    let text = options.and_then(|options| options.declared.usage(start, make));
    text.map_or(ptr::null_mut(), |text| ManuallyDrop::new(text).as_mut_ptr())
}

#[no_mangle]
unsafe extern "C" fn getopts_usage(options: Option<&Getopts>, brief: Text) -> *mut u8 {
    usage(options, unsafe { bytes(brief) }, |of, brief| of.options.usage(Global, brief))
}

#[no_mangle]
unsafe extern "C" fn getopts_usage_in(
    options: Option<&Getopts>,
    brief: Text,
    columns: usize,
) -> *mut u8 {
    let brief = unsafe { bytes(brief) };
    usage(options, brief, |of, brief| of.options.usage_in(Global, brief, columns))
}

#[no_mangle]
unsafe extern "C" fn getopts_short_usage(options: Option<&Getopts>, program: Text) -> *mut u8 {
    usage(options, unsafe { bytes(program) }, Declared::short_usage)
}

#[no_mangle]
extern "C" fn getopts_version() -> Text {
    concat!(env!("CARGO_PKG_VERSION"), "\0").as_ptr()
}
