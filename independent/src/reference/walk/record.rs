//! The walk's record as the 44 bytes of the C struct, numbers low byte first; so
//! the two halves of the mask are one row.

use super::{bytes_of, digits_of, Ending, Heard, Sent, Walk};
use super::{FOURTEEN, LAST_SLOT, LEVELS, PLACES, ROUNDS};
use crate::reference::check::{bits_of, byte_of};
use crate::reference::Refusal;

pub const RECORD: usize = 44;

/// Where each part of the record stands.
pub mod at {
    use std::ops::Range;

    pub const MARKS: Range<usize> = 0..28;
    pub const ROUNDS: Range<usize> = 28..30;
    pub const FAMILY: Range<usize> = 30..32;
    pub const MASK: Range<usize> = 32..40;
    pub const LEVEL: usize = 40;
    pub const SLOT: usize = 41;
    pub const COUNT: usize = 42;
    pub const ENDING: usize = 43;
}

/// Hears a slot; a refused call changes nothing.
pub fn hear(heard: &Heard, record: &mut [u8], list: &mut [u64]) -> Result<(), Refusal> {
    let mut walk = read(record)?;
    walk.hear(heard, list)?;
    write(&walk, record);
    Ok(())
}

pub fn ask(record: &[u8], room: usize) -> Result<Sent, Refusal> {
    read(record)?.ask(room)
}

/// Number 10, clause by clause.
pub fn read(record: &[u8]) -> Result<Walk, Refusal> {
    let (rounds, family) = (number(&record[at::ROUNDS]), number(&record[at::FAMILY]));
    let (level, listed) = (usize::from(record[at::LEVEL]), usize::from(record[at::COUNT]));
    let slot = record[at::SLOT];
    if level >= LEVELS || slot > LAST_SLOT || listed > PLACES || rounds == 0 || rounds > ROUNDS {
        return Err(Refusal::Walk);
    }
    let digits = digits_of(&record[at::MASK]);
    let (mask, above) = digits.split_at(level);
    if above.iter().any(|&digit| digit > 0) {
        return Err(Refusal::Walk);
    }
    let marks: Vec<Vec<bool>> = record[at::MARKS]
        .chunks(2)
        .map(|mark| mark.iter().flat_map(|&byte| bits_of(byte)).collect())
        .collect();
    let deepest = level.min(LEVELS - 2);
    if marks[deepest + 1..].iter().flatten().any(|&waits| waits) {
        return Err(Refusal::Walk);
    }
    let slots = |mark: &Vec<bool>| (0..=LAST_SLOT).filter(|&s| mark[usize::from(s)]).collect();
    Ok(Walk {
        limits: FOURTEEN,
        family,
        mask: mask.to_vec(),
        slot,
        waiting: marks.iter().map(slots).collect(),
        rounds,
        listed,
        ending: match record[at::ENDING] {
            0 => None,
            1 => Some(Ending::Complete),
            2 => Some(Ending::Twins),
            3 => Some(Ending::Full),
            _ => Some(Ending::Overrun),
        },
    })
}

pub fn write(walk: &Walk, record: &mut [u8]) {
    let mask = bytes_of(&walk.mask);
    record[at::MASK].fill(0);
    record[at::MASK][..mask.len()].copy_from_slice(&mask);
    for (mark, slots) in record[at::MARKS].chunks_mut(2).zip(&walk.waiting) {
        let waits: Vec<bool> = (0..=LAST_SLOT).map(|slot| slots.contains(&slot)).collect();
        mark.copy_from_slice(&[byte_of(&waits[..8]), byte_of(&waits[8..])]);
    }
    record[at::ROUNDS].copy_from_slice(&walk.rounds.to_le_bytes());
    record[at::FAMILY].copy_from_slice(&walk.family.to_le_bytes());
    record[at::LEVEL] = walk.mask.len() as u8;
    record[at::SLOT] = walk.slot;
    record[at::COUNT] = walk.listed as u8;
    record[at::ENDING] = match walk.ending {
        None => 0,
        Some(Ending::Complete) => 1,
        Some(Ending::Twins) => 2,
        Some(Ending::Full) => 3,
        Some(Ending::Overrun) => 4,
    };
}

fn number(bytes: &[u8]) -> u16 {
    u16::from(bytes[0]) + 256 * u16::from(bytes[1])
}
