//! The same bytes as strings of the crate and of the standard library, and the checks of simdutf8.
use crate::table::Contestant;
use crate_windows::windows_strings;
use std::ffi::OsStr;

/// On Unix, where any bytes are a string.
pub fn unix(bytes: &[u8]) -> &OsStr {
    unsafe { OsStr::from_encoded_bytes_unchecked(bytes) }
}

/// On Windows; the bytes are WTF-8.
pub fn windows(bytes: &[u8]) -> &windows_strings::OsStr {
    unsafe { windows_strings::OsStr::from_encoded_bytes_unchecked(bytes) }
}

/// As a `str`; the bytes are UTF-8.
pub fn text(bytes: &[u8]) -> &str {
    unsafe { str::from_utf8_unchecked(bytes) }
}

/// The first index from `from` on at which no byte of a character follows.
pub fn boundary_from(bytes: &[u8], from: usize) -> usize {
    (from..bytes.len()).find(|&at| bytes[at] & 0xC0 != 0x80).unwrap_or(bytes.len())
}

/// The peers of checks: the last two are simdutf8 with vectors of 16 bytes, and with those of 32.
pub const OF_CHECKS: [&str; 4] = ["crate", "std", "simdutf8", "simdutf8 of AVX2"];

/// Whether the bytes are UTF-8, by simdutf8 with the vectors of SSE4.2 (which x86-64-v2 has).
pub fn is_utf8_sse42(bytes: &[u8]) -> bool {
    unsafe { simdutf8::basic::imp::x86::sse42::validate_utf8(bytes).is_ok() }
}

/// The same with those of AVX2, for a processor that has them.
pub fn is_utf8_avx2(bytes: &[u8]) -> bool {
    unsafe { simdutf8::basic::imp::x86::avx2::validate_utf8(bytes).is_ok() }
}

/// The contestants if the processor has the vectors of AVX2.
pub fn if_avx2(contestant: Contestant) -> Contestant {
    contestant.filter(|_| is_x86_feature_detected!("avx2"))
}
