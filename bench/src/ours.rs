//! The exports of crates/bench_exports, which states what each returns.
//!
//! A slice crosses as a pointer and a length. The functions here are safe as long as the library
//! satisfies its contracts and the caller their preconditions.

mod exports {
    unsafe extern "C" {
        pub fn port_check(bytes: *const u8, len: usize) -> u64;
        pub fn port_is_utf8(bytes: *const u8, len: usize) -> bool;
        pub fn port_from_raw_vec(bytes: *const u8, len: usize) -> usize;
        pub fn port_encode_wide(bytes: *const u8, len: usize, out: *mut u16, room: usize) -> usize;
        pub fn port_decode_wide(units: *const u16, len: usize, out: *mut u8, room: usize) -> usize;
        pub fn port_write_wide(bytes: *const u8, len: usize, out: *mut u16, room: usize) -> usize;
        pub fn port_write_from_wide(units: *const u16, len: usize, out: *mut u8, room: usize) -> usize;
        pub fn port_from_wide(units: *const u16, len: usize) -> usize;
        pub fn port_to_wide(bytes: *const u8, len: usize) -> usize;
        pub fn port_lossy(bytes: *const u8, len: usize) -> usize;
        pub fn port_display(bytes: *const u8, len: usize) -> usize;
        pub fn port_win_lossy(bytes: *const u8, len: usize) -> usize;
        pub fn port_win_read_lossy(bytes: *const u8, len: usize) -> usize;
        pub fn port_wasm_read_lossy(bytes: *const u8, len: usize) -> usize;
        pub fn port_chunks(bytes: *const u8, len: usize) -> usize;
        pub fn port_symbols(bytes: *const u8, len: usize) -> u64;
        pub fn port_split_first_char(bytes: *const u8, len: usize) -> u32;
        pub fn port_is_boundary(bytes: *const u8, len: usize, at: usize) -> bool;
        pub fn port_find(bytes: *const u8, len: usize, pattern: *const u8, pattern_len: usize) -> usize;
        pub fn port_rfind(bytes: *const u8, len: usize, pattern: *const u8, pattern_len: usize) -> usize;
        pub fn port_split_once(bytes: *const u8, len: usize, pattern: *const u8, pattern_len: usize) -> usize;
        pub fn port_strip_prefix(bytes: *const u8, len: usize, pattern: *const u8, pattern_len: usize) -> usize;
        pub fn port_trim_matches(bytes: *const u8, len: usize, pattern: *const u8, pattern_len: usize) -> usize;
        pub fn port_split(bytes: *const u8, len: usize, pattern: *const u8, pattern_len: usize) -> usize;
        pub fn port_rsplit(bytes: *const u8, len: usize, pattern: *const u8, pattern_len: usize) -> usize;
        pub fn port_starts_with(bytes: *const u8, len: usize, pattern: *const u8, pattern_len: usize) -> bool;
        pub fn port_push(part: *const u8, len: usize, count: usize) -> usize;
        pub fn port_repeat(bytes: *const u8, len: usize, count: usize) -> usize;
        pub fn port_starts_with_os(bytes: *const u8, len: usize, prefix: *const u8, prefix_len: usize) -> bool;
        pub fn port_matches(
            pattern: *const u8,
            pattern_len: usize,
            slash: bool,
            bytes: *const u8,
            len: usize,
            lens: *const usize,
            count: usize,
        ) -> usize;
        pub fn port_set_new(
            patterns: *const u8,
            patterns_len: usize,
            pattern_lens: *const usize,
            pattern_count: usize,
            folds: bool,
        ) -> bool;
        pub fn port_set_matches(
            patterns: *const u8,
            patterns_len: usize,
            pattern_lens: *const usize,
            pattern_count: usize,
            folds: bool,
            bytes: *const u8,
            len: usize,
            lens: *const usize,
            count: usize,
            times: usize,
        ) -> usize;
        pub fn port_set_is_match(
            patterns: *const u8,
            patterns_len: usize,
            pattern_lens: *const usize,
            pattern_count: usize,
            folds: bool,
            bytes: *const u8,
            len: usize,
            lens: *const usize,
            count: usize,
            times: usize,
        ) -> usize;
        pub fn port_options(words: *const u8, len: usize, lens: *const usize, count: usize) -> u64;
        pub fn port_flags(bytes: *const u8, len: usize) -> u64;
        pub fn port_arguments(line: *const u8, len: usize) -> u64;
        pub fn port_push_argument(argument: *const u8, len: usize) -> usize;
        pub fn port_escape(bytes: *const u8, len: usize) -> usize;
        pub fn port_win_escape(bytes: *const u8, len: usize) -> usize;
        pub fn port_wasm_escape(bytes: *const u8, len: usize) -> usize;
        pub fn port_escape_line(bytes: *const u8, len: usize) -> usize;
        pub fn port_write_escape(bytes: *const u8, len: usize, out: *mut u8, room: usize) -> usize;
        pub fn port_write_escape_line(bytes: *const u8, len: usize, out: *mut u8, room: usize) -> usize;
        pub fn port_unescape(text: *const u8, len: usize) -> usize;
        pub fn port_unescape_line(text: *const u8, len: usize) -> usize;
        pub fn port_wasm_check(bytes: *const u8, len: usize) -> u64;
        pub fn port_to_str(bytes: *const u8, len: usize) -> usize;
        pub fn port_components(path: *const u8, len: usize) -> usize;
        pub fn port_components_back(path: *const u8, len: usize) -> usize;
        pub fn port_parent(path: *const u8, len: usize) -> usize;
        pub fn port_file_name(path: *const u8, len: usize) -> usize;
        pub fn port_extension(path: *const u8, len: usize) -> usize;
        pub fn port_path_starts_with(path: *const u8, len: usize, base: *const u8, base_len: usize) -> bool;
        pub fn port_join(base: *const u8, len: usize, more: *const u8, more_len: usize) -> usize;
        pub fn port_push_path(base: *const u8, len: usize, more: *const u8, more_len: usize) -> usize;
        pub fn port_normalize(path: *const u8, len: usize) -> usize;
        pub fn port_path_eq(a: *const u8, len: usize, b: *const u8, b_len: usize) -> bool;
        pub fn port_path_is_less(a: *const u8, len: usize, b: *const u8, b_len: usize) -> bool;
        pub fn port_words(line: *const u8, len: usize) -> u64;
        pub fn port_quoted(name: *const u8, len: usize) -> usize;
        pub fn port_quote(name: *const u8, len: usize) -> usize;
        pub fn port_write_quoted(name: *const u8, len: usize, out: *mut u8, room: usize) -> usize;
        pub fn port_command_line(
            program: *const u8,
            len: usize,
            first: *const u8,
            first_len: usize,
            second: *const u8,
            second_len: usize,
            third: *const u8,
            third_len: usize,
        ) -> usize;
        pub fn port_ends_with(bytes: *const u8, len: usize, pattern: *const u8, pattern_len: usize) -> bool;
    }
}

pub fn check(bytes: &[u8]) -> bool {
    unsafe { exports::port_check(bytes.as_ptr(), bytes.len()) == 0 }
}

pub fn is_utf8(bytes: &[u8]) -> bool {
    unsafe { exports::port_is_utf8(bytes.as_ptr(), bytes.len()) }
}

/// The length of a string of a copy of the bytes, which are WTF-8.
pub fn from_raw_vec(bytes: &[u8]) -> usize {
    unsafe { exports::port_from_raw_vec(bytes.as_ptr(), bytes.len()) }
}

pub fn encode_wide(bytes: &[u8], out: &mut [u16]) -> usize {
    unsafe { exports::port_encode_wide(bytes.as_ptr(), bytes.len(), out.as_mut_ptr(), out.len()) }
}

pub fn decode_wide(units: &[u16], out: &mut [u8]) -> usize {
    unsafe { exports::port_decode_wide(units.as_ptr(), units.len(), out.as_mut_ptr(), out.len()) }
}

pub fn write_wide(bytes: &[u8], out: &mut [u16]) -> usize {
    unsafe { exports::port_write_wide(bytes.as_ptr(), bytes.len(), out.as_mut_ptr(), out.len()) }
}

pub fn write_from_wide(units: &[u16], out: &mut [u8]) -> usize {
    unsafe { exports::port_write_from_wide(units.as_ptr(), units.len(), out.as_mut_ptr(), out.len()) }
}

pub fn from_wide(units: &[u16]) -> usize {
    unsafe { exports::port_from_wide(units.as_ptr(), units.len()) }
}

pub fn to_wide(bytes: &[u8]) -> usize {
    unsafe { exports::port_to_wide(bytes.as_ptr(), bytes.len()) }
}

pub fn unix_lossy(bytes: &[u8]) -> usize {
    unsafe { exports::port_lossy(bytes.as_ptr(), bytes.len()) }
}

pub fn display(bytes: &[u8]) -> usize {
    unsafe { exports::port_display(bytes.as_ptr(), bytes.len()) }
}

pub fn windows_lossy(bytes: &[u8]) -> usize {
    unsafe { exports::port_win_lossy(bytes.as_ptr(), bytes.len()) }
}

pub fn windows_read_lossy(bytes: &[u8]) -> usize {
    unsafe { exports::port_win_read_lossy(bytes.as_ptr(), bytes.len()) }
}

pub fn wasm_read_lossy(bytes: &[u8]) -> usize {
    unsafe { exports::port_wasm_read_lossy(bytes.as_ptr(), bytes.len()) }
}

pub fn is_boundary(bytes: &[u8], at: usize) -> bool {
    unsafe { exports::port_is_boundary(bytes.as_ptr(), bytes.len(), at) }
}

pub fn find(bytes: &[u8], pattern: &str) -> usize {
    unsafe { exports::port_find(bytes.as_ptr(), bytes.len(), pattern.as_ptr(), pattern.len()) }
}

pub fn rfind(bytes: &[u8], pattern: &str) -> usize {
    unsafe { exports::port_rfind(bytes.as_ptr(), bytes.len(), pattern.as_ptr(), pattern.len()) }
}

pub fn split_once(bytes: &[u8], pattern: &str) -> usize {
    unsafe { exports::port_split_once(bytes.as_ptr(), bytes.len(), pattern.as_ptr(), pattern.len()) }
}

pub fn strip_prefix(bytes: &[u8], pattern: &str) -> usize {
    unsafe { exports::port_strip_prefix(bytes.as_ptr(), bytes.len(), pattern.as_ptr(), pattern.len()) }
}

pub fn trim_matches(bytes: &[u8], pattern: &str) -> usize {
    unsafe { exports::port_trim_matches(bytes.as_ptr(), bytes.len(), pattern.as_ptr(), pattern.len()) }
}

pub fn starts_with(bytes: &[u8], pattern: &str) -> bool {
    unsafe { exports::port_starts_with(bytes.as_ptr(), bytes.len(), pattern.as_ptr(), pattern.len()) }
}

pub fn ends_with(bytes: &[u8], pattern: &str) -> bool {
    unsafe { exports::port_ends_with(bytes.as_ptr(), bytes.len(), pattern.as_ptr(), pattern.len()) }
}

pub fn split(bytes: &[u8], pattern: &str) -> usize {
    unsafe { exports::port_split(bytes.as_ptr(), bytes.len(), pattern.as_ptr(), pattern.len()) }
}

pub fn rsplit(bytes: &[u8], pattern: &str) -> usize {
    unsafe { exports::port_rsplit(bytes.as_ptr(), bytes.len(), pattern.as_ptr(), pattern.len()) }
}

pub fn push(part: &[u8], count: usize) -> usize {
    unsafe { exports::port_push(part.as_ptr(), part.len(), count) }
}

pub fn repeat(bytes: &[u8], count: usize) -> usize {
    unsafe { exports::port_repeat(bytes.as_ptr(), bytes.len(), count) }
}

pub fn starts_with_os(bytes: &[u8], prefix: &[u8]) -> bool {
    unsafe { exports::port_starts_with_os(bytes.as_ptr(), bytes.len(), prefix.as_ptr(), prefix.len()) }
}

pub fn chunks(bytes: &[u8]) -> usize {
    unsafe { exports::port_chunks(bytes.as_ptr(), bytes.len()) }
}

pub fn symbols(bytes: &[u8]) -> u64 {
    unsafe { exports::port_symbols(bytes.as_ptr(), bytes.len()) }
}

pub fn split_first_char(bytes: &[u8]) -> u32 {
    unsafe { exports::port_split_first_char(bytes.as_ptr(), bytes.len()) }
}

/// The texts of these lengths make up `texts`; `/` separates, or nothing does.
pub fn matches(pattern: &str, slash: bool, texts: &str, lens: &[usize]) -> usize {
    unsafe {
        exports::port_matches(
            pattern.as_ptr(),
            pattern.len(),
            slash,
            texts.as_ptr(),
            texts.len(),
            lens.as_ptr(),
            lens.len(),
        )
    }
}

/// Patterns of these lengths make up a text; they may match without regard to case.
#[derive(Clone, Copy)]
pub struct Patterns<'a> {
    pub text: &'a str,
    pub lens: &'a [usize],
    pub folds: bool,
}

pub fn set_new(of: Patterns) -> bool {
    unsafe { exports::port_set_new(of.text.as_ptr(), of.text.len(), of.lens.as_ptr(), of.lens.len(), of.folds) }
}

/// The texts of these lengths make up `texts`.
pub fn set_matches(of: Patterns, texts: &str, lens: &[usize], times: usize) -> usize {
    unsafe {
        exports::port_set_matches(
            of.text.as_ptr(),
            of.text.len(),
            of.lens.as_ptr(),
            of.lens.len(),
            of.folds,
            texts.as_ptr(),
            texts.len(),
            lens.as_ptr(),
            lens.len(),
            times,
        )
    }
}

/// The same.
pub fn set_is_match(of: Patterns, texts: &str, lens: &[usize], times: usize) -> usize {
    unsafe {
        exports::port_set_is_match(
            of.text.as_ptr(),
            of.text.len(),
            of.lens.as_ptr(),
            of.lens.len(),
            of.folds,
            texts.as_ptr(),
            texts.len(),
            lens.as_ptr(),
            lens.len(),
            times,
        )
    }
}

/// The words of these lengths make up `words`.
pub fn options(words: &str, lens: &[usize]) -> u64 {
    unsafe { exports::port_options(words.as_ptr(), words.len(), lens.as_ptr(), lens.len()) }
}

/// The sum of the flags of a word.
pub fn flags(word: &[u8]) -> u64 {
    unsafe { exports::port_flags(word.as_ptr(), word.len()) }
}

pub fn arguments(line: &[u8]) -> u64 {
    unsafe { exports::port_arguments(line.as_ptr(), line.len()) }
}

pub fn push_argument(argument: &[u8]) -> usize {
    unsafe { exports::port_push_argument(argument.as_ptr(), argument.len()) }
}

pub fn escape(bytes: &[u8]) -> usize {
    unsafe { exports::port_escape(bytes.as_ptr(), bytes.len()) }
}

/// The length of the escape on Windows, of bytes that are WTF-8.
pub fn windows_escape(bytes: &[u8]) -> usize {
    unsafe { exports::port_win_escape(bytes.as_ptr(), bytes.len()) }
}

/// The length of the escape on wasm, of bytes that are UTF-8.
pub fn wasm_escape(bytes: &[u8]) -> usize {
    unsafe { exports::port_wasm_escape(bytes.as_ptr(), bytes.len()) }
}

pub fn escape_line(bytes: &[u8]) -> usize {
    unsafe { exports::port_escape_line(bytes.as_ptr(), bytes.len()) }
}

pub fn write_escape(bytes: &[u8], out: &mut [u8]) -> usize {
    unsafe { exports::port_write_escape(bytes.as_ptr(), bytes.len(), out.as_mut_ptr(), out.len()) }
}

pub fn write_escape_line(bytes: &[u8], out: &mut [u8]) -> usize {
    unsafe { exports::port_write_escape_line(bytes.as_ptr(), bytes.len(), out.as_mut_ptr(), out.len()) }
}

/// The bytes are UTF-8.
pub fn unescape(bytes: &[u8]) -> usize {
    unsafe { exports::port_unescape(bytes.as_ptr(), bytes.len()) }
}

/// The bytes are UTF-8.
pub fn unescape_line(bytes: &[u8]) -> usize {
    unsafe { exports::port_unescape_line(bytes.as_ptr(), bytes.len()) }
}

pub fn wasm_check(bytes: &[u8]) -> bool {
    unsafe { exports::port_wasm_check(bytes.as_ptr(), bytes.len()) == 0 }
}

/// The length of the text that the bytes are.
pub fn to_str(bytes: &[u8]) -> usize {
    unsafe { exports::port_to_str(bytes.as_ptr(), bytes.len()) }
}

pub fn components(path: &[u8]) -> usize {
    unsafe { exports::port_components(path.as_ptr(), path.len()) }
}

pub fn components_back(path: &[u8]) -> usize {
    unsafe { exports::port_components_back(path.as_ptr(), path.len()) }
}

pub fn parent(path: &[u8]) -> usize {
    unsafe { exports::port_parent(path.as_ptr(), path.len()) }
}

pub fn file_name(path: &[u8]) -> usize {
    unsafe { exports::port_file_name(path.as_ptr(), path.len()) }
}

pub fn extension(path: &[u8]) -> usize {
    unsafe { exports::port_extension(path.as_ptr(), path.len()) }
}

pub fn path_starts_with(path: &[u8], base: &str) -> bool {
    unsafe { exports::port_path_starts_with(path.as_ptr(), path.len(), base.as_ptr(), base.len()) }
}

pub fn join(base: &[u8], more: &str) -> usize {
    unsafe { exports::port_join(base.as_ptr(), base.len(), more.as_ptr(), more.len()) }
}

pub fn push_path(base: &[u8], more: &str) -> usize {
    unsafe { exports::port_push_path(base.as_ptr(), base.len(), more.as_ptr(), more.len()) }
}

pub fn normalize(path: &[u8]) -> usize {
    unsafe { exports::port_normalize(path.as_ptr(), path.len()) }
}

pub fn path_eq(a: &[u8], b: &str) -> bool {
    unsafe { exports::port_path_eq(a.as_ptr(), a.len(), b.as_ptr(), b.len()) }
}

pub fn path_is_less(a: &[u8], b: &str) -> bool {
    unsafe { exports::port_path_is_less(a.as_ptr(), a.len(), b.as_ptr(), b.len()) }
}

/// The sum of the bytes of the words.
pub fn words(line: &[u8]) -> u64 {
    unsafe { exports::port_words(line.as_ptr(), line.len()) }
}

pub fn quoted(name: &[u8]) -> usize {
    unsafe { exports::port_quoted(name.as_ptr(), name.len()) }
}

pub fn quote(name: &[u8]) -> usize {
    unsafe { exports::port_quote(name.as_ptr(), name.len()) }
}

pub fn write_quoted(name: &[u8], out: &mut [u8]) -> usize {
    unsafe { exports::port_write_quoted(name.as_ptr(), name.len(), out.as_mut_ptr(), out.len()) }
}

/// How many units the line of a program with three arguments has.
pub fn command_line(program: &[u8], [first, second, third]: [&[u8]; 3]) -> usize {
    unsafe {
        exports::port_command_line(
            program.as_ptr(),
            program.len(),
            first.as_ptr(),
            first.len(),
            second.as_ptr(),
            second.len(),
            third.as_ptr(),
            third.len(),
        )
    }
}
