//! Calls through the signature in C that the exports of this repository have: a slice is a pointer,
//! which may be null where nothing is, and a length. So all contestants pay for it.
use std::slice;

/// A call of bytes, of bytes and a pattern that is a text, or of bytes and an index.
macro_rules! through_c {
    ($name:ident, |$bytes:ident| $answer:expr) => {{
        #[unsafe(no_mangle)]
        #[inline(never)]
        extern "C" fn $name(bytes: *const u8, len: usize) -> u64 {
            let $bytes = unsafe { crate::through_c::slice_of(bytes, len) };
            $answer
        }
        |bytes: &[u8]| $name(bytes.as_ptr(), bytes.len())
    }};
    ($name:ident, |$bytes:ident, $pattern:ident| $answer:expr) => {{
        #[unsafe(no_mangle)]
        #[inline(never)]
        extern "C" fn $name(bytes: *const u8, len: usize, pattern: *const u8, pattern_len: usize) -> usize {
            let $bytes = unsafe { crate::through_c::slice_of(bytes, len) };
            let $pattern = theirs::text(unsafe { crate::through_c::slice_of(pattern, pattern_len) });
            $answer
        }
        |bytes: &[u8], pattern: &str| $name(bytes.as_ptr(), bytes.len(), pattern.as_ptr(), pattern.len())
    }};
    ($name:ident, |$bytes:ident, $at:ident: usize| $answer:expr) => {{
        #[unsafe(no_mangle)]
        #[inline(never)]
        extern "C" fn $name(bytes: *const u8, len: usize, $at: usize) -> bool {
            let $bytes = unsafe { crate::through_c::slice_of(bytes, len) };
            $answer
        }
        |bytes: &[u8], at: usize| $name(bytes.as_ptr(), bytes.len(), at)
    }};
}
pub(crate) use through_c;

/// The slice that crosses as a pointer and a length.
///
/// # Safety
///
/// The pointer is null, or points to as many bytes, which aren't written while the slice exists.
pub unsafe fn slice_of<'a>(at: *const u8, len: usize) -> &'a [u8] {
    if at.is_null() { &[] } else { unsafe { slice::from_raw_parts(at, len) } }
}
