//! libgit2's `git_message_trailers`, which answers the same question as the trailers of a message: all tokens and values.
//! It keeps the line ends of a folded value.

use std::{
    ffi::{c_char, c_int, CStr},
    ptr,
};

#[repr(C)]
struct Trailers {
    trailers: *mut [*const c_char; 2],
    count: usize,
    trailer_block: *mut c_char,
}

extern "C" {
    fn git_libgit2_init() -> c_int;
    fn git_message_trailers(trailers: *mut Trailers, message: *const c_char) -> c_int;
    fn git_message_trailer_array_free(trailers: *mut Trailers);
}

/// Makes the library ready; once is enough.
pub fn ready() {
    // SAFETY: it may be called at any time.
    assert!(unsafe { git_libgit2_init() } > 0);
}

/// How many trailers a message has, all of them read.
pub fn message_trailers(message: &CStr) -> u64 {
    let mut trailers = Trailers {
        trailers: ptr::null_mut(),
        count: 0,
        trailer_block: ptr::null_mut(),
    };
    // SAFETY: the struct is git_message_trailer_array, and is freed once, after it was filled.
    unsafe {
        assert_eq!(git_message_trailers(&mut trailers, message.as_ptr()), 0);
        git_message_trailer_array_free(&mut trailers);
    }
    trailers.count as u64
}
