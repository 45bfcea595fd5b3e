//! The card's functions. Memory and locks of a slot mark or a power off are
//! lent to be read alone, which the comparison watches.

use super::Lent;

extern "C" {
    fn ek_card_frame(
        record: *mut u8,
        record_length: usize,
        frame: *const u8,
        length: usize,
        memory: *mut u8,
        memory_length: usize,
        locks: *mut u8,
        locks_length: usize,
        answer: *mut u8,
        room: usize,
    ) -> i64;
    fn ek_card_mark(
        record: *mut u8,
        record_length: usize,
        memory: *const u8,
        memory_length: usize,
        locks: *const u8,
        locks_length: usize,
        answer: *mut u8,
        room: usize,
    ) -> i64;
    fn ek_card_power_off(
        record: *mut u8,
        record_length: usize,
        memory: *const u8,
        memory_length: usize,
        locks: *const u8,
        locks_length: usize,
        answer: *mut u8,
        room: usize,
    ) -> i64;
}

// Sound for the reason that the other calls are.

pub fn frame(record: Lent, frame: Lent, memory: Lent, locks: Lent, answer: Lent) -> i64 {
    unsafe {
        ek_card_frame(
            record.start,
            record.length,
            frame.start,
            frame.length,
            memory.start,
            memory.length,
            locks.start,
            locks.length,
            answer.start,
            answer.length,
        )
    }
}

/// A slot mark's call and a power off's have one type.
type Event =
    unsafe extern "C" fn(*mut u8, usize, *const u8, usize, *const u8, usize, *mut u8, usize) -> i64;

fn event(call: Event, record: Lent, memory: Lent, locks: Lent, answer: Lent) -> i64 {
    unsafe {
        call(
            record.start,
            record.length,
            memory.start,
            memory.length,
            locks.start,
            locks.length,
            answer.start,
            answer.length,
        )
    }
}

pub fn mark(record: Lent, memory: Lent, locks: Lent, answer: Lent) -> i64 {
    event(ek_card_mark, record, memory, locks, answer)
}

pub fn power_off(record: Lent, memory: Lent, locks: Lent, answer: Lent) -> i64 {
    event(ek_card_power_off, record, memory, locks, answer)
}
