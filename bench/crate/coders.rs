//! Opens the crate's private coders to the benchmark, each as the crate's own conversions use it.
use super::DecodeWide;

/// Writes the units of the bytes after those of `out`, and returns whether there is no fault.
#[inline(never)]
pub fn encode_wide_into(bytes: &[u8], out: &mut Vec<u16>) -> bool {
    let mut encoder = super::encode_wide(bytes);
    for unit in &mut encoder {
        match unit {
            Ok(unit) => out.push(unit),
            Err(_) => return false,
        }
    }
    true
}

/// Writes the bytes of the units after those of `out`.
#[inline(never)]
pub fn decode_wide_into(units: &[u16], out: &mut Vec<u8>) {
    out.extend(DecodeWide::new(units.iter().copied()));
}
