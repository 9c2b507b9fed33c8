//! Symbols and first characters on Unix, beside the characters of texts.
use crate::inputs::{self, Long, Short};
use crate::table::Bench;
use crate::through_c::through_c;
use crate::{ours, theirs};
use std::hint::black_box;

pub fn time(bench: &mut Bench) {
    bench.table("Symbols", "a byte");
    for long in inputs::strings().into_iter().chain(inputs::faulty()) {
        line(bench, &long);
    }
    bench.table("Symbols of short strings", "a call");
    for strings in inputs::short_texts().iter().chain([&inputs::paths_with_a_fault()]) {
        short(bench, strings);
    }
}

/// The sum of the characters of a text.
fn sum_of_chars(text: &str) -> u64 {
    text.chars().fold(0, |sum: u64, character| sum.wrapping_add(u64::from(character)))
}

/// The sum of the characters and of the bytes beside them.
fn sum_of_chunks(bytes: &[u8]) -> u64 {
    bytes.utf8_chunks().fold(0, |sum: u64, chunk| {
        let others = chunk.invalid().iter().map(|&byte| u64::from(byte)).sum();
        sum.wrapping_add(sum_of_chars(chunk.valid())).wrapping_add(others)
    })
}

/// The number of the first character of a text, `u32::MAX` where it is empty.
fn first_char(bytes: &[u8]) -> u64 {
    let mut characters = theirs::text(bytes).chars();
    let first = characters.next().map_or(u32::MAX, u32::from);
    black_box(characters.as_str());
    u64::from(first)
}

/// The symbols beside the characters and bytes that std reads in the same bytes, and beside the
/// characters of what is known to be a text.
fn line(bench: &mut Bench, string: &Long) {
    let bytes = &string.bytes;
    let ours = || ours::symbols(black_box(bytes));
    bench.line(
        "symbols",
        &string.name,
        bytes.len(),
        [Some(&mut { ours }), None, Some(&mut || sum_of_chunks(black_box(bytes)))],
    );
    if let Ok(text) = str::from_utf8(bytes) {
        bench.line(
            "symbols of a text",
            &string.name,
            bytes.len(),
            [Some(&mut { ours }), None, Some(&mut || sum_of_chars(black_box(text)))],
        );
    }
}

/// A call with the number that it returns.
type Call = fn(&[u8]) -> u64;

const CHUNKS: Call = through_c!(std_chunks, |bytes| sum_of_chunks(bytes));
const CHARS: Call = through_c!(std_chars, |bytes| sum_of_chars(theirs::text(bytes)));
const FIRST_CHAR: Call = through_c!(std_first_char, |bytes| first_char(bytes));

fn short(bench: &mut Bench, strings: &Short) {
    one_each(bench, "symbols", strings, ours::symbols, Some(CHUNKS));
    let of_a_text = strings.are_texts();
    if of_a_text {
        one_each(bench, "symbols of a text", strings, ours::symbols, Some(CHARS));
    }
    let first = |bytes: &[u8]| u64::from(ours::split_first_char(bytes));
    one_each(bench, "split_first_char", strings, first, of_a_text.then_some(FIRST_CHAR));
}

/// One call for each short string.
fn one_each(bench: &mut Bench, call: &str, strings: &Short, ours: Call, std: Option<Call>) {
    let all = |sum: Call| {
        let sum = black_box(sum);
        strings.strings().fold(0, |all: u64, string| all.wrapping_add(sum(string)))
    };
    let mut of_std = std.map(|sum| move || all(sum));
    let of_std = of_std.as_mut().map(|run| run as &mut dyn FnMut() -> u64);
    bench.line(call, strings.name, strings.count(), [Some(&mut || all(ours)), None, of_std]);
}
