//! Times calls over an input of 1 GiB, its first half and its first quarter, once each, and prints
//! what memory they took in addition to the input.
#[allow(dead_code)]
#[path = "../ours.rs"]
mod ours;

use std::fs::read_to_string;
use std::time::Instant;

/// A part of a path: ASCII, letters of two and of four bytes, and a lone surrogate, which on Unix
/// is no text.
const PIECE: &[u8] = b"/usr/share/d\xC3\xA9\xF0\x9F\x98\x80\xED\xA0\x80.txt";

const LEN: usize = 1 << 30;

/// A call, and its result for a number of whole pieces and a prefix of another.
type Call = (&'static str, fn(&[u8]) -> usize, fn(usize) -> usize);

const CALLS: [Call; 4] = [
    ("Windows::check", |bytes| ours::check(bytes).into(), |_| 1),
    ("find, nowhere", |bytes| ours::find(bytes, "\u{E9}\u{E9}"), |_| usize::MAX),
    ("split at a slash", |bytes| ours::split(bytes, "/"), |pieces| pieces * 3 + 1),
    ("utf8_chunks", ours::chunks, |pieces| pieces + 1),
];

/// The greatest memory that the process has had so far, in KiB.
fn peak() -> usize {
    let status = read_to_string("/proc/self/status").expect("Linux tells a process of itself");
    let line = status.lines().find_map(|line| line.strip_prefix("VmHWM:"));
    let size = line.and_then(|line| line.split_whitespace().next());
    size.and_then(|size| size.parse().ok()).expect("its peak is a number")
}

fn main() {
    let mut input = Vec::with_capacity(LEN);
    while input.len() + PIECE.len() <= LEN {
        input.extend_from_slice(PIECE);
    }
    let before = peak();
    println!("| Call | 256 MiB | 512 MiB | 1 GiB | nanoseconds for a byte |");
    println!("|---|---|---|---|---|");
    for (name, call, answer) in CALLS {
        print!("| {name} |");
        for part in [4, 2, 1] {
            let pieces = input.len() / PIECE.len() / part;
            let bytes = &input[..pieces * PIECE.len()];
            let start = Instant::now();
            let answered = call(bytes);
            let time = start.elapsed();
            assert_eq!(answered, answer(pieces), "{name}");
            print!(" {:.3} s |", time.as_secs_f64());
            if part == 1 {
                println!(" {:.3} |", time.as_secs_f64() * 1e9 / bytes.len() as f64);
            }
        }
    }
    println!();
    println!("memory before the calls {before} KiB, taken by them {} KiB", peak() - before);
}
