//! The card's record as the forty bytes of the C header, numbers low byte first.

use super::card::{frame, mark, power_off, Card, Held, Mode, Said, Sequence};
use super::check::{bits_of, byte_of};
use super::Refusal;

pub const RECORD: usize = 40;

pub enum Event {
    Frame(Vec<u8>),
    Mark,
    PowerOff,
}

/// The bytes that are lent with every event.
#[derive(Clone, Debug)]
pub struct Tag {
    pub record: Vec<u8>,
    pub memory: Vec<u8>,
    pub locks: Vec<u8>,
}

/// Serves an event; a refused one changes nothing.
pub fn serve(event: &Event, tag: &mut Tag, room: usize) -> Result<Said, Refusal> {
    let mut card = read(&tag.record)?;
    let (memory, locks) = (&mut tag.memory, &mut tag.locks);
    let said = match event {
        Event::Frame(bytes) => frame(&mut card, bytes, memory, locks, room)?,
        Event::Mark => mark(&mut card, memory, locks, room)?,
        Event::PowerOff => power_off(&mut card, memory, locks, room)?,
    };
    write(&card, &mut tag.record);
    Ok(said)
}

pub fn read(record: &[u8]) -> Result<Card, Refusal> {
    if record.len() != RECORD {
        return Err(Refusal::Record);
    }
    let sequence = match record[22] {
        0 => None,
        _ => {
            let bits: Vec<bool> = record[32..].iter().flat_map(|&byte| bits_of(byte)).collect();
            let (mask, above) = bits.split_at(bits.len().min(record[24] as usize));
            if above.contains(&true) {
                return Err(Refusal::Record);
            }
            Some(Sequence { slot: record[23], mask: mask.to_vec() })
        }
    };
    Ok(Card {
        uid: record[..8].try_into().unwrap(),
        blocks: number(&record[8..12]),
        size: number(&record[12..16]),
        afi: record[16],
        dsfid: record[17],
        afi_locked: record[18] != 0,
        dsfid_locked: record[19] != 0,
        ic: record[20],
        mode: match record[21] {
            0 => Mode::Ready,
            1 => Mode::Quiet,
            _ => Mode::Selected,
        },
        sequence,
        held: match record[25] {
            0 => None,
            1 => Some(Held::Success),
            code => Some(Held::Error(code)),
        },
    })
}

/// Leaves the bytes 26 to 31 as found.
pub fn write(card: &Card, record: &mut [u8]) {
    record[..8].copy_from_slice(&card.uid);
    record[8..12].copy_from_slice(&card.blocks.to_le_bytes());
    record[12..16].copy_from_slice(&card.size.to_le_bytes());
    record[16] = card.afi;
    record[17] = card.dsfid;
    record[18] = card.afi_locked.into();
    record[19] = card.dsfid_locked.into();
    record[20] = card.ic;
    record[21] = match card.mode {
        Mode::Ready => 0,
        Mode::Quiet => 1,
        Mode::Selected => 2,
    };
    record[22..25].fill(0);
    record[25] = match card.held {
        None => 0,
        Some(Held::Success) => 1,
        Some(Held::Error(code)) => code,
    };
    record[32..].fill(0);
    if let Some(Sequence { slot, mask }) = &card.sequence {
        record[22..25].copy_from_slice(&[1, *slot, mask.len() as u8]);
        for (byte, bits) in record[32..].iter_mut().zip(mask.chunks(8)) {
            *byte = byte_of(bits);
        }
    }
}

fn number(bytes: &[u8]) -> u32 {
    bytes.iter().rev().fold(0, |number, &byte| 256 * number + u32::from(byte))
}
