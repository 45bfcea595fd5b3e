//! Cards to begin with, and right records in other bytes.

use crate::random::Random;
use crate::reference::check::{bits_of, byte_of};
use crate::reference::record::{read, Tag, RECORD};

pub fn any(random: &mut Random) -> Tag {
    let other = 1 + random.below(256);
    let blocks = random.pick(&[1, 1, 2, 3, 16, 32, 64, 255, 256, other, other]);
    let other = 1 + random.below(32);
    let size = random.pick(&[1, 1, 2, 4, 8, 31, 32, other, other]);

    let mut record = random.bytes(RECORD);
    if random.once_in(8) {
        let byte = random.pick(&[0x00, 0xFF, 0x11]);
        record[..8].fill(byte);
    }
    record[8..12].copy_from_slice(&(blocks as u32).to_le_bytes());
    record[12..16].copy_from_slice(&(size as u32).to_le_bytes());
    // AFIs by every row of Table 1.
    record[16] &= random.pick(&[0xFF, 0xFF, 0xFF, 0xF0, 0x0F, 0x00]);
    record[18] = random.pick(&[0, 0, 1]);
    record[19] = random.pick(&[0, 0, 1]);
    record[21] = random.pick(&[0, 1, 2]);
    record[22] = 0;
    record[25] = 0;
    disturb(random, &mut record);

    let locked = random.pick(&[0, 0, 1, 4]);
    let locks = (0..blocks)
        .map(|_| match locked {
            0 | 1 => locked,
            _ => u8::from(random.once_in(3)),
        })
        .collect();
    Tag { record, memory: random.bytes(blocks * size), locks }
}

/// Other states, and other bytes for the same state; the record stays right.
pub fn disturb(random: &mut Random, record: &mut [u8]) {
    let any = 1 + random.below(255) as u8;
    match random.below(7) {
        0 => record[18] = any,
        1 => record[19] = any,
        2 => record[21] = any,
        3 => record[25] = random.pick(&[0, 1, 0x02, 0x10, 0x11, 0x12]),
        4 => {
            record[22] = 0;
            record[23..26].copy_from_slice(&random.bytes(3));
            record[25] = 0;
            record[32..].copy_from_slice(&random.bytes(8));
        }
        _ => sequence(random, record, any),
    }
    read(record).expect("a right record");
}

fn sequence(random: &mut Random, record: &mut [u8], running: u8) {
    let other = random.below(61) as u8;
    let length = random.pick(&[0, 1, 4, 8, 56, 59, 60, other, other]);
    record[22] = random.pick(&[1, running]);
    record[23] = random.below(16) as u8;
    record[24] = length;
    let mut mask = mask(&record[..8], length as usize);
    if length > 0 && random.once_in(4) {
        let turned = random.below(length as usize);
        mask[turned / 8] ^= 1 << (turned % 8);
    }
    record[32..].fill(0);
    record[32..][..mask.len()].copy_from_slice(&mask);
}

/// The lowest bits of a UID, with zero padding.
pub fn mask(uid: &[u8], length: usize) -> Vec<u8> {
    let bits: Vec<bool> = uid.iter().flat_map(|&byte| bits_of(byte)).take(length).collect();
    bits.chunks(8).map(byte_of).collect()
}

/// The room that the card must have.
pub fn needed(tag: &Tag) -> usize {
    let card = read(&tag.record).expect("a right record");
    32.max(3 + card.blocks as usize * (card.size as usize + 1))
}

pub fn room(random: &mut Random, tag: &Tag) -> usize {
    needed(tag) + if random.once_in(2) { 0 } else { random.below(40) }
}
