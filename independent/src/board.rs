//! The functions of the C header, as the archive exports them.

pub mod card;
pub mod coil;
pub mod reader;
pub mod shared;
pub mod walk;

use std::marker::PhantomData;

extern "C" {
    fn ek_check(bytes: *const u8, length: usize) -> u16;
    // Taken as a number: a C bool is a byte, and one over 1 must be seen.
    fn ek_is_sound(frame: *const u8, length: usize) -> u8;
    fn ek_seal(buffer: *mut u8, room: usize, length: usize) -> i64;
    fn ek_code(frame: *const u8, length: usize, coding: u32, track: *mut u8, room: usize) -> i64;
    fn ek_decode(track: *const u8, length: usize, frame: *mut u8, room: usize) -> i64;
}

/// A buffer lent to a call. Inputs are lent like outputs, as bytes that may be
/// changed, so that a forbidden write is seen and not optimised away.
pub struct Lent<'a> {
    start: *mut u8,
    length: usize,
    owner: PhantomData<&'a mut [u8]>,
}

impl<'a> Lent<'a> {
    pub fn of(bytes: &'a mut [u8]) -> Lent<'a> {
        Lent { start: bytes.as_mut_ptr(), length: bytes.len(), owner: PhantomData }
    }

    /// No bytes, and NULL for the pointer, which the header allows.
    pub fn null() -> Lent<'a> {
        Lent { start: std::ptr::null_mut(), length: 0, owner: PhantomData }
    }
}

// Each call below is sound because a Lent is alive, alone, and either names
// its bytes or is NULL with the length 0.

pub fn check(bytes: Lent) -> u16 {
    unsafe { ek_check(bytes.start, bytes.length) }
}

pub fn is_sound(frame: Lent) -> u8 {
    unsafe { ek_is_sound(frame.start, frame.length) }
}

pub fn seal(buffer: Lent, length: usize) -> i64 {
    unsafe { ek_seal(buffer.start, buffer.length, length) }
}

pub fn code(frame: Lent, coding: u32, track: Lent) -> i64 {
    unsafe { ek_code(frame.start, frame.length, coding, track.start, track.length) }
}

pub fn decode(track: Lent, frame: Lent) -> i64 {
    unsafe { ek_decode(track.start, track.length, frame.start, frame.length) }
}
