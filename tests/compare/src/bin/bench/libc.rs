//! The C library's search for a byte.

use std::ffi::{c_int, c_void};

extern "C" {
    fn memchr(text: *const c_void, byte: c_int, len: usize) -> *const c_void;
}

/// The place of the first such byte.
#[inline(never)]
pub fn find(text: &[u8], byte: u8) -> Option<usize> {
    // SAFETY: the pointer is good for the length.
    let found = unsafe { memchr(text.as_ptr().cast(), c_int::from(byte), text.len()) };
    (!found.is_null()).then(|| found as usize - text.as_ptr() as usize)
}
