//! The walk's functions. The record is the bytes of the C struct, and the list
//! its places' bytes, so both must stand where a C compiler would put them.

use std::mem::offset_of;

use super::Lent;
use crate::reference::walk::record::{at, RECORD};
use crate::reference::walk::LEVELS;

/// The C struct. Its mask is mask_low and, above it, mask_high.
#[repr(C)]
pub struct Record {
    marks: [u16; LEVELS],
    rounds: u16,
    family: u16,
    mask_low: u32,
    mask_high: u32,
    level: u8,
    slot: u8,
    count: u8,
    ending: u8,
}

const _: () = {
    assert!(size_of::<Record>() == RECORD && align_of::<Record>() == 4);
    assert!(offset_of!(Record, marks) == at::MARKS.start);
    assert!(offset_of!(Record, rounds) == at::ROUNDS.start);
    assert!(offset_of!(Record, family) == at::FAMILY.start);
    assert!(offset_of!(Record, mask_low) == at::MASK.start);
    assert!(offset_of!(Record, mask_high) == at::MASK.start + 4);
    assert!(offset_of!(Record, level) == at::LEVEL);
    assert!(offset_of!(Record, slot) == at::SLOT);
    assert!(offset_of!(Record, count) == at::COUNT);
    assert!(offset_of!(Record, ending) == at::ENDING);
};

extern "C" {
    fn ek_walk_start(walk: *mut Record, family: u16);
    fn ek_walk_hear_silence(walk: *mut Record, list: *mut u64, places: usize) -> i64;
    fn ek_walk_hear_clash(walk: *mut Record, list: *mut u64, places: usize) -> i64;
    fn ek_walk_hear_bytes(
        walk: *mut Record,
        bytes: *const u8,
        length: usize,
        list: *mut u64,
        places: usize,
    ) -> i64;
    fn ek_walk_ask(walk: *const Record, room: *mut u8, length: usize) -> i64;
}

pub const PLACE: usize = size_of::<u64>();

impl Lent<'_> {
    pub fn record(&self) -> *mut Record {
        let start: *mut Record = self.start.cast();
        assert!(start.is_aligned() && self.length == RECORD);
        start
    }

    pub fn places(&self) -> *mut u64 {
        let start: *mut u64 = self.start.cast();
        assert!(start.is_aligned() && self.length.is_multiple_of(PLACE));
        start
    }
}

// Sound for the reason that the other calls are, and for the alignment above.

pub fn start(record: Lent, family: u16) {
    unsafe { ek_walk_start(record.record(), family) }
}

pub fn hear_silence(record: Lent, list: Lent) -> i64 {
    unsafe { ek_walk_hear_silence(record.record(), list.places(), list.length / PLACE) }
}

pub fn hear_clash(record: Lent, list: Lent) -> i64 {
    unsafe { ek_walk_hear_clash(record.record(), list.places(), list.length / PLACE) }
}

pub fn hear_bytes(record: Lent, bytes: Lent, list: Lent) -> i64 {
    let places = list.length / PLACE;
    unsafe { ek_walk_hear_bytes(record.record(), bytes.start, bytes.length, list.places(), places) }
}

pub fn ask(record: Lent, room: Lent) -> i64 {
    unsafe { ek_walk_ask(record.record(), room.start, room.length) }
}
