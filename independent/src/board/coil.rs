//! The functions for answers on the coil.

use super::Lent;
use crate::reference::coil::Decoded;

extern "C" {
    fn ek_coil_code(answer: *const u8, length: usize, track: *mut u8, room: usize) -> i64;
    fn ek_coil_decode(track: *const u8, length: usize, answer: *mut u8, room: usize) -> i64;
}

/// What the kinds of what is decoded stand for in the number given back.
const KIND: i64 = 131_072;
const ANSWER: i64 = 0;
const CLASH: i64 = 1;
const LOST: i64 = 2;

// Sound for the reason that the other calls are.

pub fn code(answer: Lent, track: Lent) -> i64 {
    unsafe { ek_coil_code(answer.start, answer.length, track.start, track.length) }
}

pub fn decode(track: Lent, answer: Lent) -> i64 {
    unsafe { ek_coil_decode(track.start, track.length, answer.start, answer.length) }
}

/// The number that says so.
pub fn number(decoded: &Decoded) -> i64 {
    let (kind, value) = match decoded {
        Decoded::Answer(bytes) => (ANSWER, bytes.len()),
        Decoded::Clash(place) => (CLASH, *place),
        Decoded::Lost(place) => (LOST, *place),
    };
    KIND * kind + value as i64
}

/// What a number says, with the room as the call left it. A refusal comes back.
pub fn told(number: i64, room: &[u8]) -> Result<Decoded, i64> {
    let value = usize::try_from(number % KIND).map_err(|_| number)?;
    match number / KIND {
        ANSWER => room.get(..value).map(|bytes| Decoded::Answer(bytes.to_vec())).ok_or(number),
        CLASH => Ok(Decoded::Clash(value)),
        LOST => Ok(Decoded::Lost(value)),
        _ => Err(number),
    }
}
