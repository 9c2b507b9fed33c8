//! Options and operands, and a word of many flags, beside lexopt.
use crate::ours;
use crate::table::{Bench, repeated, times};
use std::ffi::OsString;
use std::hint::black_box;

/// The longest word that Linux passes to a program has 128 KiB.
const SIZES: [(usize, &str); 2] = [(1 << 10, "1 KiB"), (128 << 10, "128 KiB")];

/// Words of a kind, again and again.
const KINDS: [(&str, &[&str]); 4] = [
    ("options and files", &["-v", "--color=always", "src/main.rs", "-o", "--name", "target/release", "--jobs=4", "x"]),
    ("files", &["src/main.rs", "/usr/lib/x86_64-linux-gnu", "a", "target/release/build"]),
    ("`--to=..`", &["--to=/usr/lib", "--from=target/release"]),
    ("short flags", &["-v", "-abc"]),
];

pub fn time(bench: &mut Bench) {
    words(bench);
    bench.table_beside("Flags of one word beside lexopt", "a flag", &["lexopt"]);
    for (size, name) in SIZES {
        for (flag, kind) in [('v', "`-vvv..`"), ('ж', "Cyrillic flags")] {
            let count = (size - 1) / flag.len_utf8();
            let word = format!("-{}", String::from(flag).repeat(count));
            bench.line(
                "next",
                &format!("{kind}, {name}"),
                count,
                [Some(&mut || ours::flags(black_box(word.as_bytes()))), Some(&mut || lexopt(black_box(&word)))],
            );
        }
    }
}

/// The words of command lines, of 10 and of 1,000 words.
fn words(bench: &mut Bench) {
    bench.table_beside("Options beside lexopt", "a word", &["lexopt"]);
    for (kind, pieces) in KINDS {
        for count in [10, 1000] {
            let words: Vec<&str> = (0..count).map(|index| pieces[index % pieces.len()]).collect();
            let (all, lens) = (words.concat(), words.iter().map(|word| word.len()).collect::<Vec<_>>());
            let len = all.len();
            bench.line(
                "next",
                &format!("{kind}, {count} words"),
                times(len) * count,
                [
                    Some(&mut || repeated(len, || ours::options(black_box(&all), &lens))),
                    Some(&mut || repeated(len, || lexopt_options(black_box(&words)))),
                ],
            );
        }
    }
}

/// The sum of the lengths of the names, of the values within words and of the operands, and of the
/// flags. The parser owns its words.
fn lexopt_options(words: &[&str]) -> u64 {
    let mut parser = lexopt::Parser::from_args(words.iter().copied().map(OsString::from).collect::<Vec<_>>());
    let mut sum = 0u64;
    while let Ok(Some(argument)) = parser.next() {
        match argument {
            lexopt::Arg::Long(name) => {
                sum = sum.wrapping_add(name.len() as u64);
                if let Some(value) = parser.optional_value() {
                    sum = sum.wrapping_add(value.len() as u64);
                }
            }
            lexopt::Arg::Short(flag) => sum = sum.wrapping_add(u64::from(flag)),
            lexopt::Arg::Value(value) => sum = sum.wrapping_add(value.len() as u64),
        }
    }
    sum
}

/// The sum of the flags of a word. The parser owns its words.
fn lexopt(word: &str) -> u64 {
    let mut parser = lexopt::Parser::from_args([OsString::from(word)]);
    let mut sum = 0u64;
    while let Ok(Some(argument)) = parser.next() {
        if let lexopt::Arg::Short(flag) = argument {
            sum = sum.wrapping_add(u64::from(flag));
        }
    }
    sum
}
