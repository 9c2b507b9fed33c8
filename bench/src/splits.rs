//! Splits on Unix, of long strings and of many short ones.
use crate::inputs::{self, Long};
use crate::table::Bench;
use crate::{ours, theirs};
use crate_unix::OsStrBytesExt;
use std::hint::black_box;

/// The number of pieces.
type Count = fn(&[u8], &str) -> usize;

const SPLIT: [Count; 3] = [
    ours::split,
    |bytes, pattern| theirs::unix(bytes).split(pattern).count(),
    |bytes, pattern| theirs::text(bytes).split(pattern).count(),
];
const RSPLIT: [Count; 3] = [
    ours::rsplit,
    |bytes, pattern| theirs::unix(bytes).rsplit(pattern).count(),
    |bytes, pattern| theirs::text(bytes).rsplit(pattern).count(),
];

const PATTERNS: [&str; 4] = ["/", "a", "/src", "/release/src"];

pub fn time(bench: &mut Bench) {
    bench.table("Splits of long strings", "a byte");
    for string in inputs::strings() {
        let all = string.name.starts_with("ASCII") || string.name.starts_with("mixed");
        for pattern in if all { &PATTERNS[..] } else { &PATTERNS[..1] } {
            long(bench, "split", SPLIT, &string, pattern);
            long(bench, "rsplit", RSPLIT, &string, pattern);
        }
    }

    let paths = inputs::paths();
    bench.table("Splits of short strings", "a call");
    for pattern in PATTERNS {
        for (call, contestants) in [("split", SPLIT), ("rsplit", RSPLIT)] {
            let all = |count: Count| {
                let count = black_box(count);
                paths.strings().map(|path| count(path, pattern) as u64).sum()
            };
            let [ours, theirs, std] = contestants;
            bench.line(
                call,
                &format!("paths, `{pattern}`"),
                paths.count(),
                [Some(&mut || all(ours)), Some(&mut || all(theirs)), Some(&mut || all(std))],
            );
        }
    }
}

fn long(bench: &mut Bench, call: &str, [ours, theirs, std]: [Count; 3], string: &Long, pattern: &str) {
    let once = |count: Count| black_box(count)(black_box(&string.bytes), pattern) as u64;
    bench.line(
        call,
        &format!("{}, `{pattern}`", string.name),
        string.bytes.len(),
        [Some(&mut || once(ours)), Some(&mut || once(theirs)), string.if_text(&mut || once(std))],
    );
}
