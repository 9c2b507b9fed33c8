//! The check on Windows, bytes to units and back, lossy texts and readings.
use crate::inputs::{self, Long};
use crate::table::Bench;
use crate::{ours, theirs};
use crate_unix::RawOsStr as UnixStr;
use crate_windows::windows_strings::OsString;
use crate_windows::windows_strings::os::ffi::{OsStrExt, OsStringExt};
use crate_windows::{OsStringBytes, RawOsStr as WindowsStr, coders};
use std::hint::black_box;

pub fn time(bench: &mut Bench) {
    let strings = inputs::strings();
    check(bench, &strings);
    units(bench, &strings);
    lossy(bench, strings);
    readings(bench);
}

fn check(bench: &mut Bench, strings: &[Long]) {
    bench.table_beside("Check on Windows", "a byte", &theirs::OF_CHECKS);
    for string @ Long { name, bytes } in strings {
        bench.line(
            "check",
            name,
            bytes.len(),
            [
                Some(&mut || ours::check(black_box(bytes)) as u64),
                None,
                string.if_text(&mut || str::from_utf8(black_box(bytes)).is_ok() as u64),
                string.if_text(&mut || theirs::is_utf8_sse42(black_box(bytes)) as u64),
                theirs::if_avx2(string.if_text(&mut || theirs::is_utf8_avx2(black_box(bytes)) as u64)),
            ],
        );
        bench.line(
            "from_raw_vec",
            name,
            bytes.len(),
            [
                Some(&mut || ours::from_raw_vec(black_box(bytes)) as u64),
                Some(&mut || {
                    let string = OsString::from_raw_vec(black_box(bytes).to_vec());
                    string.map_or(0, |string| string.len() as u64)
                }),
                string
                    .if_text(&mut || String::from_utf8(black_box(bytes).to_vec()).map_or(0, |text| text.len() as u64)),
                None,
                None,
            ],
        );
        if str::from_utf8(bytes).is_ok() {
            bench.line(
                "is_utf8",
                name,
                bytes.len(),
                [
                    Some(&mut || ours::is_utf8(black_box(bytes)) as u64),
                    None,
                    Some(&mut || str::from_utf8(black_box(bytes)).is_ok() as u64),
                    Some(&mut || theirs::is_utf8_sse42(black_box(bytes)) as u64),
                    theirs::if_avx2(Some(&mut || theirs::is_utf8_avx2(black_box(bytes)) as u64)),
                ],
            );
        }
    }
}

fn units(bench: &mut Bench, strings: &[Long]) {
    bench.table("Units", "a byte");
    for Long { name, bytes } in strings {
        let mut room = vec![0; bytes.len()];
        let mut pushed = Vec::with_capacity(bytes.len());
        let mut collected = Vec::with_capacity(bytes.len());
        bench.line(
            "encode_wide",
            name,
            bytes.len(),
            [
                Some(&mut || ours::encode_wide(black_box(bytes), &mut room) as u64),
                Some(&mut || {
                    pushed.clear();
                    assert!(coders::encode_wide_into(black_box(bytes), &mut pushed));
                    pushed.len() as u64
                }),
                Some(&mut || {
                    collected.clear();
                    collected.extend(theirs::windows(black_box(bytes)).encode_wide());
                    collected.len() as u64
                }),
            ],
        );

        bench.line(
            "write_wide",
            name,
            bytes.len(),
            [
                Some(&mut || ours::write_wide(black_box(bytes), &mut room) as u64),
                Some(&mut || {
                    pushed.clear();
                    assert!(coders::encode_wide_into(black_box(bytes), &mut pushed));
                    pushed.len() as u64
                }),
                Some(&mut || {
                    collected.clear();
                    collected.extend(theirs::windows(black_box(bytes)).encode_wide());
                    collected.len() as u64
                }),
            ],
        );
        bench.line(
            "to_wide",
            name,
            bytes.len(),
            [
                Some(&mut || ours::to_wide(black_box(bytes)) as u64),
                Some(&mut || {
                    let mut pushed = Vec::with_capacity(bytes.len());
                    assert!(coders::encode_wide_into(black_box(bytes), &mut pushed));
                    pushed.len() as u64
                }),
                Some(&mut || theirs::windows(black_box(bytes)).encode_wide().collect::<Vec<u16>>().len() as u64),
            ],
        );

        let units: Vec<u16> = theirs::windows(bytes).encode_wide().collect();
        let written = ours::encode_wide(bytes, &mut room);
        assert!(room[..written] == units, "encode_wide of {name}");
        let mut room = vec![0; 3 * units.len()];
        let mut extended = Vec::with_capacity(3 * units.len());
        bench.line(
            "DecodeWide",
            name,
            bytes.len(),
            [
                Some(&mut || ours::decode_wide(black_box(&units), &mut room) as u64),
                Some(&mut || {
                    extended.clear();
                    coders::decode_wide_into(black_box(&units), &mut extended);
                    extended.len() as u64
                }),
                None,
            ],
        );
        let written = ours::decode_wide(&units, &mut room);
        assert!(room[..written] == bytes[..], "DecodeWide of {name}");
        bench.line(
            "write_from_wide",
            name,
            bytes.len(),
            [
                Some(&mut || ours::write_from_wide(black_box(&units), &mut room) as u64),
                Some(&mut || {
                    extended.clear();
                    coders::decode_wide_into(black_box(&units), &mut extended);
                    extended.len() as u64
                }),
                None,
            ],
        );
        bench.line(
            "from_wide",
            name,
            bytes.len(),
            [
                Some(&mut || ours::from_wide(black_box(&units)) as u64),
                None,
                Some(&mut || OsString::from_wide(black_box(&units)).len() as u64),
            ],
        );
    }
}

fn lossy(bench: &mut Bench, strings: Vec<Long>) {
    bench.table("Lossy texts", "a byte");
    for Long { name, bytes } in &strings {
        let string = WindowsStr::new(theirs::windows(bytes));
        bench.line(
            "Windows to_string_lossy",
            name,
            bytes.len(),
            [
                Some(&mut || ours::windows_lossy(black_box(bytes)) as u64),
                Some(&mut || black_box(string).to_str_lossy().len() as u64),
                None,
            ],
        );
    }
    for Long { name, bytes } in strings.into_iter().chain(inputs::faulty()) {
        let string = UnixStr::new(theirs::unix(&bytes));
        bench.line(
            "Unix to_string_lossy",
            &name,
            bytes.len(),
            [
                Some(&mut || ours::unix_lossy(black_box(&bytes)) as u64),
                Some(&mut || black_box(string).to_str_lossy().len() as u64),
                Some(&mut || String::from_utf8_lossy(black_box(&bytes)).len() as u64),
            ],
        );
    }
}

fn readings(bench: &mut Bench) {
    bench.table("Lossy readings", "a byte");
    for Long { name, bytes } in inputs::strings().into_iter().chain(inputs::faulty()) {
        bench.line(
            "Windows read_lossy",
            &name,
            bytes.len(),
            [Some(&mut || ours::windows_read_lossy(black_box(&bytes)) as u64), None, None],
        );
        bench.line(
            "wasm read_lossy",
            &name,
            bytes.len(),
            [
                Some(&mut || ours::wasm_read_lossy(black_box(&bytes)) as u64),
                None,
                Some(&mut || String::from_utf8_lossy(black_box(&bytes)).len() as u64),
            ],
        );
    }
}
