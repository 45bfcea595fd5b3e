//! The walk's functions over a list that two racks share. The owners' marks are
//! a byte for each row.

use super::walk::{Record, PLACE};
use super::Lent;

extern "C" {
    fn ek_shared_start(
        walk: *mut Record,
        rack: u32,
        family: u16,
        owners: *mut u8,
        marks: usize,
    ) -> i64;
    fn ek_shared_hear_silence(
        walk: *mut Record,
        rack: u32,
        rows: *mut u64,
        places: usize,
        owners: *mut u8,
        marks: usize,
    ) -> i64;
    fn ek_shared_hear_clash(
        walk: *mut Record,
        rack: u32,
        rows: *mut u64,
        places: usize,
        owners: *mut u8,
        marks: usize,
    ) -> i64;
    fn ek_shared_hear_bytes(
        walk: *mut Record,
        rack: u32,
        bytes: *const u8,
        length: usize,
        rows: *mut u64,
        places: usize,
        owners: *mut u8,
        marks: usize,
    ) -> i64;
}

// Sound for the reason that the walk's other calls are.

pub fn start(record: Lent, rack: u32, family: u16, marks: Lent) -> i64 {
    unsafe { ek_shared_start(record.record(), rack, family, marks.start, marks.length) }
}

/// Hearing silence and hearing a clash have one type.
type Hear = unsafe extern "C" fn(*mut Record, u32, *mut u64, usize, *mut u8, usize) -> i64;

fn hear(call: Hear, record: Lent, rack: u32, rows: Lent, marks: Lent) -> i64 {
    let places = rows.length / PLACE;
    unsafe { call(record.record(), rack, rows.places(), places, marks.start, marks.length) }
}

pub fn hear_silence(record: Lent, rack: u32, rows: Lent, marks: Lent) -> i64 {
    hear(ek_shared_hear_silence, record, rack, rows, marks)
}

pub fn hear_clash(record: Lent, rack: u32, rows: Lent, marks: Lent) -> i64 {
    hear(ek_shared_hear_clash, record, rack, rows, marks)
}

pub fn hear_bytes(record: Lent, rack: u32, bytes: Lent, rows: Lent, marks: Lent) -> i64 {
    unsafe {
        ek_shared_hear_bytes(
            record.record(),
            rack,
            bytes.start,
            bytes.length,
            rows.places(),
            rows.length / PLACE,
            marks.start,
            marks.length,
        )
    }
}
