//! Joins of short parts and prefixes of short strings, on Windows.
use crate::inputs;
use crate::table::Bench;
use crate::{ours, theirs};
use crate_windows::OsStrBytesExt;
use crate_windows::windows_strings::OsString;
use std::hint::black_box;

/// How often a part is joined in all.
const COUNT: usize = 10_000;

/// A name and a part: of ASCII, of a letter, of both halves of a pair the wrong way round.
const PARTS: [(&str, &[u8]); 4] = [
    ("`a`", b"a"),
    ("`/usr/lib`", b"/usr/lib"),
    ("`\u{E9}t\u{E9}`", "\u{E9}t\u{E9}".as_bytes()),
    ("DC00 41 D800", b"\xED\xB0\x80A\xED\xA0\x80"),
];

/// Prefixes of the paths: of ASCII, and with half of a pair at the end.
const PREFIXES: [(&str, &[u8]); 3] = [("`/`", b"/"), ("`/usr/lib`", b"/usr/lib"), ("`/usr` D800", b"/usr\xED\xA0\x80")];

pub fn time(bench: &mut Bench) {
    bench.table("Joins of short parts on Windows", "a part");
    for (name, part) in PARTS {
        bench.line(
            "push",
            &format!("{name}, 10,000 times"),
            COUNT,
            [
                Some(&mut || ours::push(black_box(part), COUNT) as u64),
                None,
                Some(&mut || pushed(black_box(part)) as u64),
            ],
        );
        for count in [4, COUNT] {
            let all = |repeat: fn(&[u8], usize) -> usize| {
                let repeat = black_box(repeat);
                (0..COUNT / count).map(|_| repeat(black_box(part), count) as u64).sum()
            };
            bench.line(
                "repeat",
                &format!("{name}, {count} times"),
                COUNT,
                [
                    Some(&mut || all(ours::repeat)),
                    Some(&mut || all(|part, count| theirs::windows(part).repeat(count).len())),
                    None,
                ],
            );
        }
    }

    let paths = inputs::paths();
    bench.table("Prefixes of short strings on Windows", "a call");
    for (name, prefix) in PREFIXES {
        let all = |starts: fn(&[u8], &[u8]) -> bool| {
            let starts = black_box(starts);
            paths.strings().filter(|path| starts(path, prefix)).count() as u64
        };
        bench.line(
            "starts_with_os",
            &format!("paths, {name}"),
            paths.count(),
            [
                Some(&mut || all(ours::starts_with_os)),
                Some(&mut || all(|path, prefix| theirs::windows(path).starts_with_os(theirs::windows(prefix)))),
                None,
            ],
        );
    }
}

/// The length of the string of one part after the other, by std.
fn pushed(part: &[u8]) -> usize {
    let mut all = OsString::new();
    for _ in 0..COUNT {
        all.push(theirs::windows(part));
    }
    all.len()
}
