//! Chunks on Unix.
use crate::inputs::{self, Long, Short};
use crate::table::Bench;
use crate::{ours, theirs};
use crate_unix::OsStrBytesExt;
use std::hint::black_box;

pub fn time(bench: &mut Bench) {
    bench.table("Chunks", "a byte");
    for long in inputs::strings().into_iter().chain(inputs::faulty()) {
        line(bench, &long);
    }
    bench.table("Chunks of one piece, repeated", "a byte");
    for long in inputs::periodic() {
        line(bench, &long);
    }
    bench.table("Chunks of short strings", "a call");
    for strings in inputs::short_texts().iter().chain([&inputs::paths_with_a_fault()]) {
        short(bench, strings);
    }
}

/// One call for each short string.
fn short(bench: &mut Bench, strings: &Short) {
    let all = |chunks: fn(&[u8]) -> usize| {
        let chunks = black_box(chunks);
        strings.strings().map(|string| chunks(string) as u64).sum()
    };
    bench.line(
        "utf8_chunks",
        strings.name,
        strings.count(),
        [Some(&mut || all(ours::chunks)), Some(&mut || all(|bytes| theirs::unix(bytes).utf8_chunks().count())), None],
    );
}

fn line(bench: &mut Bench, Long { name, bytes }: &Long) {
    let string = theirs::unix(bytes);
    bench.line(
        "utf8_chunks",
        name,
        bytes.len(),
        [
            Some(&mut || ours::chunks(black_box(bytes)) as u64),
            Some(&mut || black_box(string).utf8_chunks().count() as u64),
            None,
        ],
    );
}
