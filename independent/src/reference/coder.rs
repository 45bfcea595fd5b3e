//! The coder: a track is a row of intervals, packed into bytes at the end.

use super::{Refusal, FRAME_MAX};

#[derive(Clone, Copy, Debug, PartialEq, Eq)]
pub enum Coding {
    OneOf4,
    OneOf256,
}

pub const CODINGS: [Coding; 2] = [Coding::OneOf4, Coding::OneOf256];

impl Coding {
    /// The coding's number on the rules page.
    pub fn number(self) -> u32 {
        match self {
            Coding::OneOf4 => 0,
            Coding::OneOf256 => 1,
        }
    }

    pub fn numbered(number: u32) -> Option<Coding> {
        CODINGS.into_iter().find(|coding| coding.number() == number)
    }

    /// The start, 84 or 81.
    pub fn start(self) -> Vec<bool> {
        match self {
            Coding::OneOf4 => intervals(8, &[0, 5]),
            Coding::OneOf256 => intervals(8, &[0, 7]),
        }
    }

    /// One byte of a frame. A value owns two intervals and pauses in the second.
    pub fn unit(self, value: u8) -> Vec<bool> {
        let value = usize::from(value);
        match self {
            Coding::OneOf4 => [value, value / 4, value / 16, value / 64]
                .into_iter()
                .flat_map(|pairs| intervals(8, &[2 * (pairs % 4) + 1]))
                .collect(),
            Coding::OneOf256 => intervals(512, &[2 * value + 1]),
        }
    }
}

/// The end, 20: four intervals and four zero bits. Alone it is the slot mark.
pub fn end() -> Vec<bool> {
    [intervals(4, &[2]), intervals(4, &[])].concat()
}

/// A row of intervals with pauses at the given places, the earliest being 0.
fn intervals(count: usize, pauses: &[usize]) -> Vec<bool> {
    let mut row = vec![false; count];
    for &place in pauses {
        row[place] = true;
    }
    row
}

/// Eight intervals to a byte, the earliest worth most.
pub fn packed(row: &[bool]) -> Vec<u8> {
    row.chunks(8)
        .map(|eight| eight.iter().fold(0, |byte, &pause| 2 * byte + u8::from(pause)))
        .collect()
}

/// The track of bytes of any number, even over what a frame may have.
pub fn track_of(bytes: &[u8], coding: Coding) -> Vec<u8> {
    let mut row = coding.start();
    for &byte in bytes {
        row.extend(coding.unit(byte));
    }
    row.extend(end());
    packed(&row)
}

/// The coder with its refusals in order: 7, then 8.
pub fn code(frame: &[u8], coding: u32, room: usize) -> Result<Vec<u8>, Refusal> {
    let coding = Coding::numbered(coding).ok_or(Refusal::FrameOrCoding)?;
    if frame.len() > FRAME_MAX {
        return Err(Refusal::FrameOrCoding);
    }
    let track = track_of(frame, coding);
    if track.len() > room {
        return Err(Refusal::Room);
    }
    Ok(track)
}
