//! Searches, strips and prefix tests on Unix, in many short strings and in long ones.
use crate::inputs::{self, Long, Short};
use crate::table::Bench;
use crate::through_c::through_c;
use crate::{ours, theirs};
use crate_unix::OsStrBytesExt;
use std::hint::black_box;

/// A call on a string and a pattern: an index or a length, `usize::MAX` where there is none.
type Search = fn(&[u8], &str) -> usize;

pub fn time(bench: &mut Bench) {
    let (paths, arguments) = (inputs::paths(), inputs::arguments());
    bench.table("Searches in short strings", "a call");
    for (call, contestants, pattern) in [
        ("find", FIND, "/"),
        ("find", FIND, "."),
        ("find", FIND, "lib"),
        ("find", FIND, ".."),
        ("find", FIND, "/src"),
        ("rfind", RFIND, "/"),
        ("rfind", RFIND, "."),
        ("rfind", RFIND, "lib"),
        ("strip_prefix", STRIP_PREFIX, "/usr/"),
        ("ends_with", ENDS_WITH, ".txt"),
    ] {
        short(bench, call, contestants, &paths, pattern);
    }
    for (call, contestants, pattern) in [
        ("find", FIND, "--"),
        ("find", FIND, "file"),
        ("split_once", SPLIT_ONCE, "="),
        ("strip_prefix", STRIP_PREFIX, "--"),
        ("strip_prefix", STRIP_PREFIX, "--output="),
        ("starts_with", STARTS_WITH, "--"),
    ] {
        short(bench, call, contestants, &arguments, pattern);
    }

    bench.table("Hard searches in strings of 129 to 4,096 bytes", "a call");
    for (needle, said) in [("~", "`~`"), ("~~", "`~~`"), ("zq/needle.xyz", "13 bytes"), ("release.zip", "11 bytes")] {
        for strings in inputs::middling("") {
            middling(bench, &strings, &format!("{said}, absent"), needle);
        }
        for strings in inputs::middling(needle) {
            middling(bench, &strings, &format!("{said}, at the end"), needle);
        }
    }

    bench.table("Searches in long strings", "a byte");
    let strings = inputs::strings();
    strings.iter().for_each(|string| each(bench, string, "/"));
    full(bench, 1);
    full(bench, 16);
    bench.table("Hard searches in long strings", "a byte");
    for string in &strings {
        absent(bench, string, "zq/needle.xyz", "absent");
        absent(bench, string, "~", "`~`, absent");
    }
}

fn or_max(found: Option<usize>) -> usize {
    found.unwrap_or(usize::MAX)
}

const FIND: [Search; 3] = [
    ours::find,
    through_c!(their_find, |bytes, pattern| or_max(theirs::unix(bytes).find(pattern))),
    through_c!(std_find, |bytes, pattern| or_max(theirs::text(bytes).find(pattern))),
];
const RFIND: [Search; 3] = [
    ours::rfind,
    through_c!(their_rfind, |bytes, pattern| or_max(theirs::unix(bytes).rfind(pattern))),
    through_c!(std_rfind, |bytes, pattern| or_max(theirs::text(bytes).rfind(pattern))),
];
const STRIP_PREFIX: [Search; 3] = [
    ours::strip_prefix,
    through_c!(their_strip_prefix, |bytes, pattern| or_max(
        theirs::unix(bytes).strip_prefix(pattern).map(|rest| rest.len())
    )),
    through_c!(std_strip_prefix, |bytes, pattern| or_max(theirs::text(bytes).strip_prefix(pattern).map(str::len))),
];
const STARTS_WITH: [Search; 3] = [
    |bytes, pattern| usize::from(ours::starts_with(bytes, pattern)),
    through_c!(their_starts_with, |bytes, pattern| usize::from(theirs::unix(bytes).starts_with(pattern))),
    through_c!(std_starts_with, |bytes, pattern| usize::from(theirs::text(bytes).starts_with(pattern))),
];
const ENDS_WITH: [Search; 3] = [
    |bytes, pattern| usize::from(ours::ends_with(bytes, pattern)),
    through_c!(their_ends_with, |bytes, pattern| usize::from(theirs::unix(bytes).ends_with(pattern))),
    through_c!(std_ends_with, |bytes, pattern| usize::from(theirs::text(bytes).ends_with(pattern))),
];
const SPLIT_ONCE: [Search; 3] = [
    ours::split_once,
    through_c!(their_split_once, |bytes, pattern| or_max(
        theirs::unix(bytes).split_once(pattern).map(|(prefix, _)| prefix.len())
    )),
    through_c!(std_split_once, |bytes, pattern| or_max(
        theirs::text(bytes).split_once(pattern).map(|(prefix, _)| prefix.len())
    )),
];

/// The search for a needle that isn't in the strings, or at their ends.
fn middling(bench: &mut Bench, strings: &Short, said: &str, needle: &str) {
    timed(bench, "find", FIND, strings, &format!("{}, {said}", strings.name), needle);
}

/// One call for each short string.
fn short(bench: &mut Bench, call: &str, contestants: [Search; 3], strings: &Short, pattern: &str) {
    timed(bench, call, contestants, strings, &format!("{}, `{pattern}`", strings.name), pattern);
}

fn timed(bench: &mut Bench, call: &str, contestants: [Search; 3], strings: &Short, input: &str, pattern: &str) {
    let all = |search: Search| {
        let search = black_box(search);
        strings.strings().fold(0, |sum: usize, string| sum.wrapping_add(search(string, pattern))) as u64
    };
    let [ours, theirs, std] = contestants;
    bench.line(
        call,
        input,
        strings.count(),
        [Some(&mut || all(ours)), Some(&mut || all(theirs)), Some(&mut || all(std))],
    );
}

/// The search for a pattern that doesn't occur in the string, from both ends.
fn absent(bench: &mut Bench, string: &Long, pattern: &str, said: &str) {
    for (call, [ours, theirs, std]) in [("find", FIND), ("rfind", RFIND)] {
        let once = |search: Search| black_box(search)(black_box(&string.bytes), pattern) as u64;
        bench.line(
            call,
            &format!("{}, {said}", string.name),
            string.bytes.len(),
            [Some(&mut || once(ours)), Some(&mut || once(theirs)), string.if_text(&mut || once(std))],
        );
    }
}

/// A search for each occurrence of a pattern of one byte, from the end of the one before.
fn each(bench: &mut Bench, string: &Long, pattern: &str) {
    let count = |search: Search| {
        let search = black_box(search);
        let mut rest = black_box(&string.bytes[..]);
        let mut count = 0;
        loop {
            let at = search(rest, pattern);
            if at == usize::MAX {
                return count;
            }
            rest = &rest[at + 1..];
            count += 1;
        }
    };
    let [ours, theirs, std] = FIND;
    bench.line(
        "find",
        &format!("{}, each `{pattern}`", string.name),
        string.bytes.len(),
        [Some(&mut || count(ours)), Some(&mut || count(theirs)), string.if_text(&mut || count(std))],
    );
}

/// The trim of a string that the pattern fills.
fn full(bench: &mut Bench, mib: usize) {
    let string = "ab".repeat(mib << 19);
    let string = string.as_bytes();
    bench.line(
        "trim_matches",
        &format!("full of `ab`, {mib} MiB"),
        string.len(),
        [
            Some(&mut || ours::trim_matches(black_box(string), "ab") as u64),
            Some(&mut || theirs::unix(black_box(string)).trim_matches("ab").len() as u64),
            None,
        ],
    );
}
