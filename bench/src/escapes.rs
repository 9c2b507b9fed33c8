//! Escapes of Unix strings in both forms, and back, and escapes on the other platforms.
use crate::inputs::{self, Short};
use crate::table::Bench;
use crate::{ours, theirs};
use std::fmt::{Arguments, Write};
use std::hint::black_box;

/// A call, and the length of its result.
type Call = (&'static str, fn(&[u8]) -> usize);

/// A call that writes into a buffer, and how long what it writes is.
type Written = (&'static str, fn(&[u8], &mut [u8]) -> usize);

const WINDOWS: Call = ("escape, Windows", ours::windows_escape);

const WASM: Call = ("escape, wasm", ours::wasm_escape);

pub fn time(bench: &mut Bench) {
    long(bench);
    hard(bench);
    short(bench);
}

/// Of long texts without anything to escape, beside a copy of their bytes.
fn long(bench: &mut Bench) {
    bench.table("Escapes", "a byte");
    let calls: [Call; 6] = [
        ("escape", ours::escape),
        WINDOWS,
        WASM,
        ("escape_line", ours::escape_line),
        ("unescape", ours::unescape),
        ("unescape_line", ours::unescape_line),
    ];
    for inputs::Long { name, bytes } in inputs::texts().into_iter().chain([inputs::hangul()]) {
        for (call, run) in calls {
            let run = black_box(run);
            bench.line(
                call,
                &name,
                bytes.len(),
                [
                    Some(&mut || run(black_box(&bytes)) as u64),
                    None,
                    Some(&mut || black_box(black_box(&bytes).to_vec()).len() as u64),
                ],
            );
        }
    }
}

/// Of texts and bytes of which most is escaped, beside `{:?}` and `escape_ascii` into a buffer that is there.
fn hard(bench: &mut Bench) {
    bench.table_beside("Hard escapes, into a buffer", "a byte", &["crate", "std", "escape_ascii"]);
    let calls: [Written; 2] = [("write_escape", ours::write_escape), ("write_escape_line", ours::write_escape_line)];
    for inputs::Long { name, bytes } in inputs::mostly_escaped() {
        let mut room = vec![0; 10 * bytes.len()];
        for (call, run) in calls {
            let run = black_box(run);
            let escaped = run(&bytes, &mut room) as u64;
            let (mut debug, mut ascii) = (String::new(), String::new());
            bench.line(
                call,
                &name,
                bytes.len(),
                [
                    Some(&mut || run(black_box(&bytes), &mut room) as u64),
                    None,
                    Some(&mut || {
                        overwrite(&mut debug, format_args!("{:?}", theirs::unix(black_box(&bytes))));
                        escaped
                    }),
                    Some(&mut || {
                        overwrite(&mut ascii, format_args!("{}", black_box(&bytes).escape_ascii()));
                        escaped
                    }),
                ],
            );
        }
    }
}

/// Writes into a buffer that is there, in place of what it has.
fn overwrite(buffer: &mut String, shown: Arguments<'_>) {
    buffer.clear();
    buffer.write_fmt(shown).expect("a String takes all");
    black_box(&buffer);
}

/// Of short ones, beside what std's `{:?}` writes, which has no way back: as a new text, and into one
/// buffer.
fn short(bench: &mut Bench) {
    bench.table("Escapes of short strings", "a call");
    for strings in inputs::short_texts().iter() {
        short_line(bench, strings, [("escape", ours::escape), ("escape_line", ours::escape_line), WINDOWS, WASM]);
        written_line(bench, strings);
    }
    let faulty = inputs::paths_with_a_fault();
    short_line(bench, &faulty, [("escape", ours::escape), ("escape_line", ours::escape_line)]);
    written_line(bench, &faulty);
    short_line(bench, &inputs::paths_with_a_surrogate(), [WINDOWS]);
}

fn short_line<const N: usize>(bench: &mut Bench, strings: &Short, calls: [Call; N]) {
    for (call, run) in calls {
        let run = black_box(run);
        // without the quotation marks
        let shown = |bytes: &[u8]| black_box(format!("{:?}", theirs::text(bytes))).len() - 2;
        bench.line(
            call,
            strings.name,
            strings.count(),
            [
                Some(&mut || strings.strings().map(run).sum::<usize>() as u64),
                None,
                strings.if_texts(&mut || strings.strings().map(shown).sum::<usize>() as u64),
            ],
        );
    }
}

fn written_line(bench: &mut Bench, strings: &Short) {
    let calls: [Written; 2] = [("write_escape", ours::write_escape), ("write_escape_line", ours::write_escape_line)];
    let mut room = [0; 800];
    let mut buffer = String::new();
    for (call, run) in calls {
        let run = black_box(run);
        let mut shown = |bytes: &[u8]| {
            buffer.clear();
            write!(buffer, "{:?}", theirs::unix(bytes)).expect("a String takes all");
            black_box(&buffer).len() - 2
        };
        bench.line(
            call,
            strings.name,
            strings.count(),
            [
                Some(&mut || strings.strings().map(|bytes| run(bytes, &mut room)).sum::<usize>() as u64),
                None,
                Some(&mut || strings.strings().map(&mut shown).sum::<usize>() as u64),
            ],
        );
    }
}
