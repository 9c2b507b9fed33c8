// Prints each name from outside as a path below /srv/files, or why there is none.
use std::ffi::{c_char, CStr};
use std::os::unix::ffi::OsStrExt;

#[link(name = "osbytes")]
extern "C" {
    #[rustfmt::skip]
    fn osb_path_join_checked(platform: u32, base: *const c_char, base_len: usize, at: *const c_char, len: usize,
                             out: *mut c_char, room: usize, count: *mut usize, fault: *mut std::ffi::c_void) -> u32;
    fn osb_status_text(status: u32) -> *const c_char;
}

fn main() {
    let base = "/srv/files";
    for name in std::env::args_os().skip(1) {
        let (mut path, mut len) = ([0u8; 4096], 0);
        let (at, out) = (name.as_bytes(), path.as_mut_ptr());
        let status = unsafe {
            osb_path_join_checked(0, base.as_ptr().cast(), base.len(), at.as_ptr().cast(), at.len(), out.cast(), path.len(), &mut len, std::ptr::null_mut())
        };
        match status {
            0 => println!("{}", String::from_utf8_lossy(&path[..len])),
            _ => println!("{}: {}", name.to_string_lossy(), unsafe { CStr::from_ptr(osb_status_text(status)) }.to_string_lossy()),
        }
    }
}
