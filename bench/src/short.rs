//! Conversions, cuts and joins of short strings, one call for each.
use crate::inputs::{self, Short};
use crate::table::Bench;
use crate::through_c::through_c;
use crate::{ours, theirs};
use crate_unix::{OsStrBytesExt, RawOsStr as UnixStr};
use crate_windows::windows_strings::OsString;
use crate_windows::windows_strings::os::ffi::{OsStrExt, OsStringExt};
use crate_windows::{OsStringBytes, RawOsStr as WindowsStr, coders};
use std::hint::black_box;

/// A call on a string, with what can be compared.
type Call = fn(&[u8]) -> usize;

pub fn time(bench: &mut Bench) {
    let (mut of_windows, mut of_unix) = (inputs::short_texts(), inputs::short_texts());
    of_windows.push(inputs::paths_with_a_surrogate());
    of_unix.push(inputs::paths_with_a_fault());

    bench.table_beside("Check of short strings on Windows", "a call", &theirs::OF_CHECKS);
    of_windows.iter().for_each(|strings| check(bench, strings));
    bench.table_beside("Check of short strings as texts", "a call", &theirs::OF_CHECKS);
    of_unix.iter().for_each(|strings| texts(bench, strings));
    bench.table("Units of short strings on Windows", "a call");
    of_windows.iter().for_each(|strings| units(bench, strings));
    bench.table("Lossy texts of short strings", "a call");
    of_windows.iter().for_each(|strings| {
        line(bench, "Windows to_string_lossy", strings, ours::windows_lossy, Some(windows_lossy), None);
    });
    for strings in &of_unix {
        line(bench, "Unix to_string_lossy", strings, ours::unix_lossy, Some(unix_lossy), Some(std_lossy));
        line(bench, "Unix display", strings, ours::display, None, Some(std_display));
        line(bench, "wasm read_lossy", strings, ours::wasm_read_lossy, None, Some(std_lossy));
    }
    bench.table("Searches and cuts in short strings", "a call");
    for strings in &of_unix {
        cuts(bench, strings);
    }
    bench.table("Joins of short strings on Windows", "a call");
    for strings in &of_windows {
        line(bench, "push, 4 times", strings, |part| ours::push(part, 4), None, Some(std_push));
    }
}

/// One call for each string.
fn all(strings: &Short, call: Call) -> u64 {
    let call = black_box(call);
    strings.strings().fold(0, |sum: u64, string| sum.wrapping_add(call(string) as u64))
}

/// A line of the calls of this repository, of the crate and of the standard library.
fn line(bench: &mut Bench, name: &str, strings: &Short, ours: Call, theirs: Option<Call>, std: Option<Call>) {
    let mut of_the_crate = theirs.map(|call| move || all(strings, call));
    let mut of_std = std.map(|call| move || all(strings, call));
    bench.line(
        name,
        strings.name,
        strings.count(),
        [
            Some(&mut || all(strings, ours)),
            of_the_crate.as_mut().map(|call| call as &mut dyn FnMut() -> u64),
            of_std.as_mut().map(|call| call as &mut dyn FnMut() -> u64),
        ],
    );
}

fn check(bench: &mut Bench, strings: &Short) {
    bench.line(
        "check",
        strings.name,
        strings.count(),
        [
            Some(&mut || all(strings, |bytes| ours::check(bytes).into())),
            None,
            strings.if_texts(&mut || all(strings, |bytes| str::from_utf8(bytes).is_ok().into())),
            strings.if_texts(&mut || all(strings, |bytes| theirs::is_utf8_sse42(bytes).into())),
            theirs::if_avx2(strings.if_texts(&mut || all(strings, |bytes| theirs::is_utf8_avx2(bytes).into()))),
        ],
    );
    if strings.are_texts() {
        bench.line(
            "is_utf8",
            strings.name,
            strings.count(),
            [
                Some(&mut || all(strings, |bytes| ours::is_utf8(bytes).into())),
                None,
                Some(&mut || all(strings, |bytes| str::from_utf8(bytes).is_ok().into())),
                Some(&mut || all(strings, |bytes| theirs::is_utf8_sse42(bytes).into())),
                theirs::if_avx2(Some(&mut || all(strings, |bytes| theirs::is_utf8_avx2(bytes).into()))),
            ],
        );
    }
    bench.line(
        "from_raw_vec",
        strings.name,
        strings.count(),
        [
            Some(&mut || all(strings, ours::from_raw_vec)),
            Some(&mut || all(strings, |bytes| OsString::from_raw_vec(bytes.to_vec()).map_or(0, |string| string.len()))),
            strings
                .if_texts(&mut || all(strings, |bytes| String::from_utf8(bytes.to_vec()).map_or(0, |text| text.len()))),
            None,
            None,
        ],
    );
}

/// Whether strings of Unix are texts, and whether bytes are strings of wasm.
fn texts(bench: &mut Bench, strings: &Short) {
    let to_str: Call = |bytes| theirs::unix(bytes).to_str().map_or(usize::MAX, str::len);
    bench.line(
        "Unix to_str",
        strings.name,
        strings.count(),
        [Some(&mut || all(strings, ours::to_str)), None, Some(&mut || all(strings, to_str)), None, None],
    );
    bench.line(
        "wasm check",
        strings.name,
        strings.count(),
        [
            Some(&mut || all(strings, |bytes| ours::wasm_check(bytes).into())),
            None,
            Some(&mut || all(strings, |bytes| str::from_utf8(bytes).is_ok().into())),
            Some(&mut || all(strings, |bytes| theirs::is_utf8_sse42(bytes).into())),
            theirs::if_avx2(Some(&mut || all(strings, |bytes| theirs::is_utf8_avx2(bytes).into()))),
        ],
    );
}

fn units(bench: &mut Bench, strings: &Short) {
    let (mut room, mut bytes) = ([0; 80], [0; 240]);
    let (mut pushed, mut collected, mut extended) =
        (Vec::with_capacity(80), Vec::with_capacity(80), Vec::with_capacity(240));
    bench.line(
        "encode_wide",
        strings.name,
        strings.count(),
        [
            Some(&mut || strings.strings().map(|bytes| ours::encode_wide(bytes, &mut room) as u64).sum()),
            Some(&mut || {
                strings.strings().fold(0, |sum, bytes| {
                    pushed.clear();
                    assert!(coders::encode_wide_into(bytes, &mut pushed));
                    sum + pushed.len() as u64
                })
            }),
            Some(&mut || {
                strings.strings().fold(0, |sum, bytes| {
                    collected.clear();
                    collected.extend(theirs::windows(bytes).encode_wide());
                    sum + collected.len() as u64
                })
            }),
        ],
    );
    bench.line(
        "write_wide",
        strings.name,
        strings.count(),
        [
            Some(&mut || strings.strings().map(|bytes| ours::write_wide(bytes, &mut room) as u64).sum()),
            Some(&mut || {
                strings.strings().fold(0, |sum, bytes| {
                    pushed.clear();
                    assert!(coders::encode_wide_into(bytes, &mut pushed));
                    sum + pushed.len() as u64
                })
            }),
            Some(&mut || {
                strings.strings().fold(0, |sum, bytes| {
                    collected.clear();
                    collected.extend(theirs::windows(bytes).encode_wide());
                    sum + collected.len() as u64
                })
            }),
        ],
    );
    line(bench, "to_wide", strings, ours::to_wide, Some(crate_to_wide), Some(std_to_wide));

    let wide: Vec<Vec<u16>> = strings.strings().map(|bytes| theirs::windows(bytes).encode_wide().collect()).collect();
    bench.line(
        "DecodeWide",
        strings.name,
        strings.count(),
        [
            Some(&mut || wide.iter().map(|units| ours::decode_wide(units, &mut bytes) as u64).sum()),
            Some(&mut || {
                wide.iter().fold(0, |sum, units| {
                    extended.clear();
                    coders::decode_wide_into(units, &mut extended);
                    sum + extended.len() as u64
                })
            }),
            None,
        ],
    );
    bench.line(
        "write_from_wide",
        strings.name,
        strings.count(),
        [
            Some(&mut || wide.iter().map(|units| ours::write_from_wide(units, &mut bytes) as u64).sum()),
            Some(&mut || {
                wide.iter().fold(0, |sum, units| {
                    extended.clear();
                    coders::decode_wide_into(units, &mut extended);
                    sum + extended.len() as u64
                })
            }),
            None,
        ],
    );
    let both: [fn(&[u16]) -> usize; 2] = [ours::from_wide, |units| OsString::from_wide(units).len()];
    let [ours, std] = black_box(both);
    bench.line(
        "from_wide",
        strings.name,
        strings.count(),
        [
            Some(&mut || wide.iter().map(|units| ours(units) as u64).sum()),
            None,
            Some(&mut || wide.iter().map(|units| std(units) as u64).sum()),
        ],
    );
}

fn cuts(bench: &mut Bench, strings: &Short) {
    type Cut = fn(&[u8], usize) -> bool;
    let their_cut: Cut =
        through_c!(their_is_boundary, |bytes, at: usize| theirs::unix(bytes).split_at(at).0.len() == at);
    let std_cut: Cut = through_c!(std_is_boundary, |bytes, at: usize| theirs::text(bytes).is_char_boundary(at));
    let at: Vec<usize> = strings.strings().map(|bytes| theirs::boundary_from(bytes, bytes.len() / 2)).collect();
    let all = |cut: Cut| {
        let cut = black_box(cut);
        strings.strings().zip(&at).filter(|&(bytes, &at)| cut(bytes, at)).count() as u64
    };
    bench.line(
        "is_boundary",
        strings.name,
        strings.count(),
        [Some(&mut || all(ours::is_boundary)), Some(&mut || all(their_cut)), strings.if_texts(&mut || all(std_cut))],
    );
    line(
        bench,
        "split_once, `.`",
        strings,
        |bytes| ours::split_once(bytes, "."),
        Some(|bytes| theirs::unix(bytes).split_once(".").map_or(usize::MAX, |(prefix, _)| prefix.len())),
        None,
    );
}

fn windows_lossy(bytes: &[u8]) -> usize {
    WindowsStr::new(theirs::windows(bytes)).to_str_lossy().len()
}

fn unix_lossy(bytes: &[u8]) -> usize {
    UnixStr::new(theirs::unix(bytes)).to_str_lossy().len()
}

fn std_lossy(bytes: &[u8]) -> usize {
    String::from_utf8_lossy(bytes).len()
}

fn std_display(bytes: &[u8]) -> usize {
    theirs::unix(bytes).display().to_string().len()
}

fn std_push(part: &[u8]) -> usize {
    let mut all = OsString::new();
    for _ in 0..4 {
        all.push(theirs::windows(part));
    }
    all.len()
}

fn crate_to_wide(bytes: &[u8]) -> usize {
    let mut units = Vec::with_capacity(bytes.len());
    assert!(coders::encode_wide_into(bytes, &mut units));
    units.len()
}

fn std_to_wide(bytes: &[u8]) -> usize {
    theirs::windows(bytes).encode_wide().collect::<Vec<u16>>().len()
}
