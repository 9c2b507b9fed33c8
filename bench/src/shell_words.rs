//! Words of a shell, written and read, beside shlex.
use crate::inputs::{self, Short};
use crate::table::{Bench, repeated, times};
use crate::{ours, theirs};
use std::hint::black_box;

/// Names of a kind: what is put into a path, or nothing.
const KINDS: [(&str, &str); 3] = [("plain", ""), ("with a blank", " "), ("with an apostrophe", "'")];

/// What a line repeats.
const PIECES: [(&str, &str); 5] = [
    ("paths", "/usr/lib/gcc/x86_64-linux-gnu/12/crtbegin.o "),
    ("options", "-O2 -Wall --color=always -I/usr/include "),
    ("single quotes", "'/home/user/My Documents/a b.txt' 'it is' "),
    ("double quotes", "\"/home/user/My Documents\" \"say \\\"hi\\\"\" "),
    ("backslashes", "My\\ Documents/a\\ \\(b\\).txt a\\\\b "),
];

const SIZES: [(usize, &str); 3] = [(80, "80 bytes"), (1 << 10, "1 KiB"), (64 << 10, "64 KiB")];

pub fn time(bench: &mut Bench) {
    bench.table_beside("Words of a shell beside shlex, written", "a call", &["shlex"]);
    let names = [inputs::arguments(), inputs::paths()].into_iter().chain(inputs::long_names());
    for names in names {
        for (kind, put) in KINDS {
            written(bench, kind, &names.changed(|name| with(name, put)));
        }
    }
    bench.table_beside("Words of a shell beside shlex, read", "a byte", &["shlex"]);
    for (size, name) in SIZES {
        for (kind, piece) in PIECES {
            let line = piece.repeat(size.div_ceil(piece.len()));
            bench.line(
                "Words",
                &format!("{kind}, {name}"),
                times(line.len()) * line.len(),
                [
                    Some(&mut || repeated(line.len(), || ours::words(black_box(line.as_bytes())))),
                    Some(&mut || repeated(line.len(), || read(black_box(&line)))),
                ],
            );
        }
    }
}

/// The path with so much in its middle.
fn with(path: &[u8], put: &str) -> Vec<u8> {
    let (before, after) = path.split_at(path.len() / 2);
    [before, put.as_bytes(), after].concat()
}

/// The words of names, as a new text and into a buffer that is there. shlex writes others, in double
/// quotes, so only how many names there are is compared.
fn written(bench: &mut Bench, kind: &str, names: &Short) {
    let input = format!("{}, {kind}", names.name);
    let count = names.count();
    for (call, ours) in [("quote", ours::quote as fn(&[u8]) -> usize), ("quoted", ours::quoted)] {
        let all = |word: fn(&[u8]) -> usize| {
            let word = black_box(word);
            names.strings().filter(|name| word(name) >= name.len()).count() as u64
        };
        bench.line(call, &input, count, [Some(&mut || all(ours)), Some(&mut || all(new_word))]);
    }
    let mut room = vec![0; 1 << 17];
    let mut buffer = String::with_capacity(1 << 17);
    let write = black_box(ours::write_quoted as fn(&[u8], &mut [u8]) -> usize);
    bench.line(
        "write_quoted",
        &input,
        count,
        [
            Some(&mut || names.strings().filter(|name| write(name, &mut room) >= name.len()).count() as u64),
            Some(&mut || {
                names
                    .strings()
                    .filter(|name| {
                        buffer.clear();
                        buffer.push_str(&shlex::quote(theirs::text(name)));
                        black_box(&buffer).len() >= name.len()
                    })
                    .count() as u64
            }),
        ],
    );
}

/// The length of the word of a name, as a new text.
fn new_word(name: &[u8]) -> usize {
    black_box(shlex::quote(theirs::text(name)).into_owned()).len()
}

/// The sum of the bytes of the words.
fn read(line: &str) -> u64 {
    shlex::Shlex::new(line).fold(0, |sum: u64, word| {
        word.bytes().fold(sum.wrapping_mul(31), |sum, byte| sum.wrapping_add(u64::from(byte)))
    })
}
