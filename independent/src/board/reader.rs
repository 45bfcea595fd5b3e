//! The reader's functions. Requests and readings go by value.

use super::Lent;
use crate::reference::reader::{Information, Request};

#[derive(Clone, Copy, Debug, PartialEq, Eq)]
#[repr(C)]
pub struct Reading {
    pub answer: i64,
    pub information: Information,
}

/// The kinds of readings, EK_READ_.. of the header.
pub const DONE: i64 = 1;
pub const BLOCKS: i64 = 2;
pub const LOCKS: i64 = 3;
pub const INFORMATION: i64 = 4;
pub const ERROR: i64 = 5;

extern "C" {
    fn ek_make(
        request: Request,
        data: *const u8,
        length: usize,
        frame: *mut u8,
        room: usize,
    ) -> i64;
    fn ek_read(
        request: Request,
        answer: *const u8,
        length: usize,
        blocks: *mut u8,
        blocks_room: usize,
        locks: *mut u8,
        locks_room: usize,
    ) -> Reading;
}

// Sound for the reason that the other calls are.

pub fn make(request: Request, data: Lent, frame: Lent) -> i64 {
    unsafe { ek_make(request, data.start, data.length, frame.start, frame.length) }
}

pub fn read(request: Request, answer: Lent, blocks: Lent, locks: Lent) -> Reading {
    unsafe {
        ek_read(
            request,
            answer.start,
            answer.length,
            blocks.start,
            blocks.length,
            locks.start,
            locks.length,
        )
    }
}
