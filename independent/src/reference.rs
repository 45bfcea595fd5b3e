//! The independent implementation: check, sealed frames, coder, decoder, card,
//! walk, shared list, reader, coil, field and bench.
//!
//! Written from the rules page ("Check and byte order", "Pulse tracks", "The
//! card", "The walk", "Numbers of refused calls", "Bench", "Examples"), the
//! change requests W1 to W3, W5 and W6, Table 1 and clause 4.1 of ISO/IEC
//! 15693-3, clauses 8.5.2, 8.6.2 and 8.6.4 of ISO/IEC 15693-2 and the C header.
//! It works on sequences of single bits, digits, written digits, intervals and
//! units, keeps what waits in sets and a shared list in a map, and looks tracks
//! up in a dictionary, so that it shares no way of working with the library.
//! Clear, not fast.

pub mod bench;
pub mod card;
pub mod check;
pub mod coder;
pub mod coil;
pub mod decoder;
pub mod field;
pub mod reader;
pub mod record;
pub mod shared;
pub mod tails;
pub mod walk;

#[cfg(test)]
mod tests;

/// The longest frame, in bytes.
pub const FRAME_MAX: usize = 64;

/// The refusals met here. The rules page gives each its number.
#[derive(Clone, Copy, Debug, PartialEq, Eq)]
pub enum Refusal {
    Record = 1,
    LentLength = 2,
    LockByte = 3,
    AnswerRoom = 4,
    List = 5,
    Ended = 6,
    FrameOrCoding = 7,
    Room = 8,
    NoTrack = 9,
    Walk = 10,
    Answer = 11,
    Coil = 12,
    Rack = 13,
}

impl Refusal {
    /// A request that is not made: it has the coder's number.
    pub const REQUEST: Refusal = Refusal::FrameOrCoding;
    /// An answer of another length than any has: the same.
    pub const LENGTH: Refusal = Refusal::FrameOrCoding;
}
