//! Command lines of Windows, beside std's rules on units, written here since std has them on Windows
//! alone.
use crate::inputs::{self, Short};
use crate::table::{Bench, repeated, times};
use crate::{ours, theirs};
use std::hint::black_box;

/// Paths, options and quoted texts, again and again.
const PIECES: [(&str, &str); 4] = [
    ("paths", "C:\\tools\\bin\\release.exe "),
    ("options", "--color=always -o out\\file.obj /nologo "),
    ("quoted", "\"C:\\Program Files\\tool\\\" \"a \\\"b\\\" c\" "),
    ("backslashes", "\\\\\\\\\\\\\\\"a\\\\\\\\\\\\b "),
];

const SIZES: [(usize, &str); 2] = [(1 << 10, "1 KiB"), (64 << 10, "64 KiB")];

const PROGRAM: &str = "C:\\tools\\bin\\release.exe";

const ARGUMENTS: [(&str, &str); 4] = [
    ("a path", "C:\\tools\\bin\\release.exe"),
    ("with blanks", "C:\\Program Files\\some tool\\"),
    ("quotation marks", "say \"hi\" and \"bye\""),
    ("Cyrillic", "Документы"),
];

pub fn time(bench: &mut Bench) {
    bench.table("Command lines of Windows", "a byte");
    for (size, name) in SIZES {
        for (kind, piece) in PIECES {
            long_line(bench, &format!("{kind}, {name}"), &format!("tool.exe {}", piece.repeat(size / piece.len())));
        }
    }
    for (size, name) in SIZES {
        for (kind, text) in ARGUMENTS {
            long_argument(bench, &format!("{kind}, {name}"), &text.repeat(size / text.len()));
        }
    }
    bench.table("Command lines of Windows, short", "a call");
    let mut kinds = inputs::short_texts();
    kinds.push(inputs::paths().changed(with_a_blank).named("paths with a blank"));
    for strings in &kinds {
        short(bench, strings);
    }
}

/// A line that is read.
fn long_line(bench: &mut Bench, input: &str, line: &str) {
    let units = line.encode_utf16().collect::<Vec<_>>();
    let len = line.len();
    bench.line(
        "Arguments",
        input,
        times(len) * len,
        [
            Some(&mut || repeated(len, || ours::arguments(black_box(line.as_bytes())))),
            None,
            Some(&mut || repeated(len, || sum_of(&read(black_box(&units))))),
        ],
    );
}

/// An argument that is written, and a line of a program with three of them.
fn long_argument(bench: &mut Bench, input: &str, text: &str) {
    let (raw, len) = (text.as_bytes(), text.len());
    bench.line(
        "push_argument",
        input,
        times(len) * len,
        [
            Some(&mut || repeated(len, || ours::push_argument(black_box(raw)) as u64)),
            None,
            Some(&mut || repeated(len, || pushed(black_box(raw)))),
        ],
    );
    let all = PROGRAM.len() + 3 * len;
    bench.line(
        "command_line",
        input,
        times(all) * all,
        [
            Some(&mut || repeated(all, || ours::command_line(PROGRAM.as_bytes(), [black_box(raw); 3]) as u64)),
            None,
            Some(&mut || repeated(all, || whole(PROGRAM.as_bytes(), [black_box(raw); 3]))),
        ],
    );
}

/// One call for each string, or for a program and three.
fn short(bench: &mut Bench, strings: &Short) {
    let strings_of: Vec<&[u8]> = strings.strings().collect();
    let lines: Vec<String> =
        strings_of.chunks_exact(2).map(|two| format!("{} \"{}\"", of(two[0]), of(two[1]))).collect();
    let units: Vec<Vec<u16>> = lines.iter().map(|line| line.encode_utf16().collect()).collect();
    let sum = |answers: &mut dyn Iterator<Item = u64>| answers.fold(0, |sum: u64, answer| sum.wrapping_add(answer));
    bench.line(
        "Arguments",
        &format!("{}, a name and one argument", strings.name),
        lines.len(),
        [
            Some(&mut || sum(&mut lines.iter().map(|line| ours::arguments(line.as_bytes())))),
            None,
            Some(&mut || sum(&mut units.iter().map(|line| sum_of(&read(line))))),
        ],
    );
    bench.line(
        "push_argument",
        strings.name,
        strings_of.len(),
        [
            Some(&mut || sum(&mut strings_of.iter().map(|argument| ours::push_argument(argument) as u64))),
            None,
            Some(&mut || sum(&mut strings_of.iter().map(|argument| pushed(argument)))),
        ],
    );
    let calls = strings_of.len() / 4;
    let fours = || strings_of.chunks_exact(4).map(|four| (four[0], [four[1], four[2], four[3]]));
    bench.line(
        "command_line",
        &format!("{}, a name and three arguments", strings.name),
        calls,
        [
            Some(&mut || sum(&mut fours().map(|(name, arguments)| ours::command_line(name, arguments) as u64))),
            None,
            Some(&mut || sum(&mut fours().map(|(name, arguments)| whole(name, arguments)))),
        ],
    );
}

fn with_a_blank(path: &[u8]) -> Vec<u8> {
    let (before, after) = path.split_at(path.len() / 2);
    [before, b" ", after].concat()
}

fn of(bytes: &[u8]) -> &str {
    theirs::text(bytes)
}

/// How many units an argument has that is written into a new vector.
fn pushed(argument: &[u8]) -> u64 {
    let mut line = Vec::new();
    write(&mut line, of(argument));
    black_box(&line).len() as u64
}

/// How many units a line of a program with three arguments has.
fn whole(program: &[u8], arguments: [&[u8]; 3]) -> u64 {
    let mut line = Vec::new();
    write_line(&mut line, of(program), &arguments.map(of));
    black_box(&line).len() as u64
}

fn sum_of(arguments: &[Vec<u16>]) -> u64 {
    let mut sum = 0u64;
    for (at, argument) in arguments.iter().enumerate() {
        if at > 0 {
            sum = sum.wrapping_mul(31);
        }
        sum = argument.iter().fold(sum, |sum, unit| sum.wrapping_add(u64::from(*unit)));
    }
    sum
}

/// The name and the arguments, by the rules of the C runtime.
fn read(line: &[u16]) -> Vec<Vec<u16>> {
    const QUOTE: u16 = b'"' as u16;
    const BACKSLASH: u16 = b'\\' as u16;
    let is_blank = |unit: u16| unit == u16::from(b' ') || unit == u16::from(b'\t');
    let mut units = line.iter().copied().peekable();
    let mut all = Vec::new();
    let mut word = Vec::new();
    let mut inside = false;
    while let Some(unit) = units.next() {
        match unit {
            QUOTE => inside = !inside,
            _ if is_blank(unit) && !inside => break,
            _ => word.push(unit),
        }
    }
    all.push(std::mem::take(&mut word));
    while units.next_if(|unit| is_blank(*unit)).is_some() {}
    inside = false;
    let mut open = false;
    while let Some(unit) = units.next() {
        match unit {
            _ if is_blank(unit) && !inside => {
                all.push(std::mem::take(&mut word));
                open = false;
                while units.next_if(|unit| is_blank(*unit)).is_some() {}
                continue;
            }
            BACKSLASH => {
                let mut count = 1;
                while units.next_if_eq(&BACKSLASH).is_some() {
                    count += 1;
                }
                if units.peek() == Some(&QUOTE) {
                    word.extend(std::iter::repeat_n(BACKSLASH, count / 2));
                    if count % 2 == 1 {
                        units.next();
                        word.push(QUOTE);
                    }
                } else {
                    word.extend(std::iter::repeat_n(BACKSLASH, count));
                }
            }
            QUOTE if inside => {
                if units.next_if_eq(&QUOTE).is_some() {
                    word.push(QUOTE);
                } else {
                    inside = false;
                }
            }
            QUOTE => inside = true,
            _ => word.push(unit),
        }
        open = true;
    }
    if open {
        all.push(word);
    }
    all
}

/// Appends an argument, as std's `Command` does on Windows.
fn write(line: &mut Vec<u16>, argument: &str) {
    const QUOTE: u16 = b'"' as u16;
    const BACKSLASH: u16 = b'\\' as u16;
    assert!(!argument.encode_utf16().any(|unit| unit == 0));
    let quoted = argument.is_empty() || argument.bytes().any(|byte| byte == b' ' || byte == b'\t');
    if quoted {
        line.push(QUOTE);
    }
    let mut backslashes = 0;
    for unit in argument.encode_utf16() {
        if unit == BACKSLASH {
            backslashes += 1;
        } else {
            if unit == QUOTE {
                line.extend(std::iter::repeat_n(BACKSLASH, backslashes + 1));
            }
            backslashes = 0;
        }
        line.push(unit);
    }
    if quoted {
        line.extend(std::iter::repeat_n(BACKSLASH, backslashes));
        line.push(QUOTE);
    }
}

/// A command line, as std's `Command` makes it on Windows.
fn write_line(line: &mut Vec<u16>, program: &str, arguments: &[&str]) {
    const QUOTE: u16 = b'"' as u16;
    assert!(!program.encode_utf16().any(|unit| unit == 0 || unit == QUOTE));
    line.push(QUOTE);
    line.extend(program.encode_utf16());
    line.push(QUOTE);
    for argument in arguments {
        line.push(u16::from(b' '));
        write(line, argument);
    }
}
