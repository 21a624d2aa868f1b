//! The port's calls, as include/sluicepod.h declares them, over slices. No other module of this library has unsafe code.
//!
//! What the header asks of a caller holds of every slice: its pointer is good for its length and is never null, and no
//! two that are lent at once overlap where one of them is written to.

use crate::answers::Cursor;

/// How many entries a result must have.
pub const RESULT_LEN: usize = 16;

/// How many numbers of a table each record has.
pub const RECORD_LEN: usize = 7;

/// The codes.
pub const OK: u32 = 0;
pub const TOO_LONG: u32 = 1;
pub const BAD_PLACE: u32 = 2;
pub const NO_ROOM: u32 = 3;
pub const SHORT_TABLE: u32 = 4;
pub const BAD_TOKEN: u32 = 5;
pub const BAD_VALUE: u32 = 6;
pub const NOTHING_TO_STAND_ON: u32 = 7;
pub const BAD_HEADER: u32 = 13;
pub const NO_READING: u32 = 253;
pub const NO_KIND: u32 = 254;
pub const SHORT_RESULT: u32 = 255;

/// The kinds of token.
pub const ALL: u32 = 0;
pub const SIGNED_OFF_BY: u32 = 1;
pub const CO_AUTHORED_BY: u32 = 2;
pub const ASSISTED_BY: u32 = 3;
pub const ACKED_BY: u32 = 4;
pub const REVIEWED_BY: u32 = 5;
pub const TESTED_BY: u32 = 6;
pub const ATTRIBUTION: u32 = 7;
pub const AUTHOR: u32 = 8;

/// The readings of a message.
pub const WHOLE: u32 = 0;
pub const ABOVE_DIVIDER: u32 = 1;

/// The endings of lines.
pub const LF: usize = 0;
pub const CR_LF: usize = 1;
pub const CR: usize = 2;
pub const NO_ENDING: usize = 3;

mod declared {
    extern "C" {
        pub fn sluicepod_title_and_body(
            message: *const u8,
            message_len: usize,
            result: *mut usize,
            result_len: usize,
        ) -> u32;
        pub fn sluicepod_summary(
            title: *const u8,
            title_len: usize,
            out: *mut u8,
            out_len: usize,
            result: *mut usize,
            result_len: usize,
        ) -> u32;
        pub fn sluicepod_message_summary(
            message: *const u8,
            message_len: usize,
            out: *mut u8,
            out_len: usize,
            result: *mut usize,
            result_len: usize,
        ) -> u32;
        pub fn sluicepod_block_start(body: *const u8, body_len: usize, result: *mut usize, result_len: usize) -> u32;
        pub fn sluicepod_message_trailers(
            message: *const u8,
            message_len: usize,
            result: *mut usize,
            result_len: usize,
        ) -> u32;
        pub fn sluicepod_body_trailers(body: *const u8, body_len: usize, result: *mut usize, result_len: usize) -> u32;
        pub fn sluicepod_cursor_at(
            input: *const u8,
            input_len: usize,
            at: usize,
            result: *mut usize,
            result_len: usize,
        ) -> u32;
        pub fn sluicepod_next_trailer(
            body: *const u8,
            body_len: usize,
            at: usize,
            line: usize,
            kind: u32,
            out: *mut u8,
            out_len: usize,
            result: *mut usize,
            result_len: usize,
        ) -> u32;
        pub fn sluicepod_find_trailer(
            body: *const u8,
            body_len: usize,
            name: *const u8,
            name_len: usize,
            out: *mut u8,
            out_len: usize,
            result: *mut usize,
            result_len: usize,
        ) -> u32;
        pub fn sluicepod_list_from(
            input: *const u8,
            input_len: usize,
            at: usize,
            line: usize,
            table: *mut usize,
            table_len: usize,
            out: *mut u8,
            out_len: usize,
            result: *mut usize,
            result_len: usize,
        ) -> u32;
        pub fn sluicepod_list_trailers(
            message: *const u8,
            message_len: usize,
            reading: u32,
            table: *mut usize,
            table_len: usize,
            out: *mut u8,
            out_len: usize,
            result: *mut usize,
            result_len: usize,
        ) -> u32;
        pub fn sluicepod_list_foot(
            tail: *const u8,
            tail_len: usize,
            whole: u32,
            table: *mut usize,
            table_len: usize,
            out: *mut u8,
            out_len: usize,
            result: *mut usize,
            result_len: usize,
        ) -> u32;
        pub fn sluicepod_next_block(
            body: *const u8,
            body_len: usize,
            at: usize,
            start: usize,
            result: *mut usize,
            result_len: usize,
        ) -> u32;
        pub fn sluicepod_mailbox(value: *const u8, value_len: usize, result: *mut usize, result_len: usize) -> u32;
        pub fn sluicepod_write_bundle(
            input: *const u8,
            input_len: usize,
            ranges: *const usize,
            ranges_len: usize,
            out: *mut u8,
            out_len: usize,
            result: *mut usize,
            result_len: usize,
        ) -> u32;
        pub fn sluicepod_bundle_report(
            bundle: *const u8,
            bundle_len: usize,
            result: *mut usize,
            result_len: usize,
        ) -> u32;
        pub fn sluicepod_message_end(
            message: *const u8,
            message_len: usize,
            reading: u32,
            result: *mut usize,
            result_len: usize,
        ) -> u32;
        pub fn sluicepod_title_and_body_in(
            message: *const u8,
            message_len: usize,
            reading: u32,
            result: *mut usize,
            result_len: usize,
        ) -> u32;
        pub fn sluicepod_message_summary_in(
            message: *const u8,
            message_len: usize,
            reading: u32,
            out: *mut u8,
            out_len: usize,
            result: *mut usize,
            result_len: usize,
        ) -> u32;
        pub fn sluicepod_message_trailers_in(
            message: *const u8,
            message_len: usize,
            reading: u32,
            result: *mut usize,
            result_len: usize,
        ) -> u32;
        pub fn sluicepod_add_trailer(
            message: *const u8,
            message_len: usize,
            token: *const u8,
            token_len: usize,
            value: *const u8,
            value_len: usize,
            out: *mut u8,
            out_len: usize,
            result: *mut usize,
            result_len: usize,
        ) -> u32;
        pub fn sluicepod_is_of_kind(
            input: *const u8,
            input_len: usize,
            start: usize,
            end: usize,
            kind: u32,
            result: *mut usize,
            result_len: usize,
        ) -> u32;
        pub fn sluicepod_header_line(
            content: *const u8,
            content_len: usize,
            number: usize,
            result: *mut usize,
            result_len: usize,
        ) -> u32;
        pub fn sluicepod_commit_message(
            content: *const u8,
            content_len: usize,
            result: *mut usize,
            result_len: usize,
        ) -> u32;
    }
}

pub fn title_and_body(message: &[u8], result: &mut [usize]) -> u32 {
    // SAFETY: slices are what the header asks for; so below.
    unsafe { declared::sluicepod_title_and_body(message.as_ptr(), message.len(), result.as_mut_ptr(), result.len()) }
}

pub fn summary(title: &[u8], out: &mut [u8], result: &mut [usize]) -> u32 {
    unsafe {
        declared::sluicepod_summary(
            title.as_ptr(),
            title.len(),
            out.as_mut_ptr(),
            out.len(),
            result.as_mut_ptr(),
            result.len(),
        )
    }
}

pub fn message_summary(message: &[u8], out: &mut [u8], result: &mut [usize]) -> u32 {
    unsafe {
        declared::sluicepod_message_summary(
            message.as_ptr(),
            message.len(),
            out.as_mut_ptr(),
            out.len(),
            result.as_mut_ptr(),
            result.len(),
        )
    }
}

pub fn block_start(body: &[u8], result: &mut [usize]) -> u32 {
    unsafe { declared::sluicepod_block_start(body.as_ptr(), body.len(), result.as_mut_ptr(), result.len()) }
}

pub fn message_trailers(message: &[u8], result: &mut [usize]) -> u32 {
    unsafe { declared::sluicepod_message_trailers(message.as_ptr(), message.len(), result.as_mut_ptr(), result.len()) }
}

pub fn body_trailers(body: &[u8], result: &mut [usize]) -> u32 {
    unsafe { declared::sluicepod_body_trailers(body.as_ptr(), body.len(), result.as_mut_ptr(), result.len()) }
}

pub fn cursor_at(input: &[u8], at: usize, result: &mut [usize]) -> u32 {
    unsafe { declared::sluicepod_cursor_at(input.as_ptr(), input.len(), at, result.as_mut_ptr(), result.len()) }
}

pub fn next_trailer(body: &[u8], cursor: Cursor, kind: u32, out: &mut [u8], result: &mut [usize]) -> u32 {
    unsafe {
        declared::sluicepod_next_trailer(
            body.as_ptr(),
            body.len(),
            cursor.at,
            cursor.line,
            kind,
            out.as_mut_ptr(),
            out.len(),
            result.as_mut_ptr(),
            result.len(),
        )
    }
}

pub fn find_trailer(body: &[u8], name: &[u8], out: &mut [u8], result: &mut [usize]) -> u32 {
    unsafe {
        declared::sluicepod_find_trailer(
            body.as_ptr(),
            body.len(),
            name.as_ptr(),
            name.len(),
            out.as_mut_ptr(),
            out.len(),
            result.as_mut_ptr(),
            result.len(),
        )
    }
}

pub fn list_from(input: &[u8], cursor: Cursor, table: &mut [usize], out: &mut [u8], result: &mut [usize]) -> u32 {
    unsafe {
        declared::sluicepod_list_from(
            input.as_ptr(),
            input.len(),
            cursor.at,
            cursor.line,
            table.as_mut_ptr(),
            table.len(),
            out.as_mut_ptr(),
            out.len(),
            result.as_mut_ptr(),
            result.len(),
        )
    }
}

pub fn list_trailers(message: &[u8], reading: u32, table: &mut [usize], out: &mut [u8], result: &mut [usize]) -> u32 {
    unsafe {
        declared::sluicepod_list_trailers(
            message.as_ptr(),
            message.len(),
            reading,
            table.as_mut_ptr(),
            table.len(),
            out.as_mut_ptr(),
            out.len(),
            result.as_mut_ptr(),
            result.len(),
        )
    }
}

pub fn list_foot(tail: &[u8], whole: bool, table: &mut [usize], out: &mut [u8], result: &mut [usize]) -> u32 {
    unsafe {
        declared::sluicepod_list_foot(
            tail.as_ptr(),
            tail.len(),
            u32::from(whole),
            table.as_mut_ptr(),
            table.len(),
            out.as_mut_ptr(),
            out.len(),
            result.as_mut_ptr(),
            result.len(),
        )
    }
}

pub fn next_block(body: &[u8], at: usize, start: usize, result: &mut [usize]) -> u32 {
    unsafe { declared::sluicepod_next_block(body.as_ptr(), body.len(), at, start, result.as_mut_ptr(), result.len()) }
}

pub fn is_of_kind(input: &[u8], start: usize, end: usize, kind: u32, result: &mut [usize]) -> u32 {
    unsafe {
        declared::sluicepod_is_of_kind(
            input.as_ptr(),
            input.len(),
            start,
            end,
            kind,
            result.as_mut_ptr(),
            result.len(),
        )
    }
}

pub fn header_line(content: &[u8], number: usize, result: &mut [usize]) -> u32 {
    unsafe {
        declared::sluicepod_header_line(
            content.as_ptr(),
            content.len(),
            number,
            result.as_mut_ptr(),
            result.len(),
        )
    }
}

pub fn commit_message(content: &[u8], result: &mut [usize]) -> u32 {
    unsafe { declared::sluicepod_commit_message(content.as_ptr(), content.len(), result.as_mut_ptr(), result.len()) }
}

pub fn mailbox(value: &[u8], result: &mut [usize]) -> u32 {
    unsafe { declared::sluicepod_mailbox(value.as_ptr(), value.len(), result.as_mut_ptr(), result.len()) }
}

pub fn write_bundle(input: &[u8], ranges: &[usize], out: &mut [u8], result: &mut [usize]) -> u32 {
    unsafe {
        declared::sluicepod_write_bundle(
            input.as_ptr(),
            input.len(),
            ranges.as_ptr(),
            ranges.len(),
            out.as_mut_ptr(),
            out.len(),
            result.as_mut_ptr(),
            result.len(),
        )
    }
}

pub fn add_trailer(message: &[u8], token: &[u8], value: &[u8], out: &mut [u8], result: &mut [usize]) -> u32 {
    unsafe {
        declared::sluicepod_add_trailer(
            message.as_ptr(),
            message.len(),
            token.as_ptr(),
            token.len(),
            value.as_ptr(),
            value.len(),
            out.as_mut_ptr(),
            out.len(),
            result.as_mut_ptr(),
            result.len(),
        )
    }
}

pub fn bundle_report(bundle: &[u8], result: &mut [usize]) -> u32 {
    unsafe { declared::sluicepod_bundle_report(bundle.as_ptr(), bundle.len(), result.as_mut_ptr(), result.len()) }
}

pub fn message_end(message: &[u8], reading: u32, result: &mut [usize]) -> u32 {
    unsafe {
        declared::sluicepod_message_end(
            message.as_ptr(),
            message.len(),
            reading,
            result.as_mut_ptr(),
            result.len(),
        )
    }
}

pub fn title_and_body_in(message: &[u8], reading: u32, result: &mut [usize]) -> u32 {
    unsafe {
        declared::sluicepod_title_and_body_in(
            message.as_ptr(),
            message.len(),
            reading,
            result.as_mut_ptr(),
            result.len(),
        )
    }
}

pub fn message_summary_in(message: &[u8], reading: u32, out: &mut [u8], result: &mut [usize]) -> u32 {
    unsafe {
        declared::sluicepod_message_summary_in(
            message.as_ptr(),
            message.len(),
            reading,
            out.as_mut_ptr(),
            out.len(),
            result.as_mut_ptr(),
            result.len(),
        )
    }
}

pub fn message_trailers_in(message: &[u8], reading: u32, result: &mut [usize]) -> u32 {
    unsafe {
        declared::sluicepod_message_trailers_in(
            message.as_ptr(),
            message.len(),
            reading,
            result.as_mut_ptr(),
            result.len(),
        )
    }
}
