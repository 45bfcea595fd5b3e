//! Requests that are made, for a card and for none.

use crate::random::Random;
use crate::reference::card::Card;
use crate::reference::reader::Request;

pub const COMMANDS: [u8; 12] =
    [0x20, 0x21, 0x22, 0x23, 0x25, 0x26, 0x27, 0x28, 0x29, 0x2A, 0x2B, 0x2C];

/// For a card; most often such that it answers.
pub fn to_card(random: &mut Random, card: &Card) -> Request {
    let mut request = any(random, &COMMANDS);
    request.uid = u64::from_le_bytes(card.uid);
    if random.once_in(6) {
        request.uid ^= 1 << random.below(64);
    }
    if !random.once_in(10) {
        request.size = card.size as u16;
    }
    let blocks = card.blocks as usize;
    let inside = random.below(blocks);
    let first = random.pick(&[0, blocks - 1, blocks, 255, inside, inside, inside, inside]);
    let left = (blocks - 1).saturating_sub(first);
    let (within, few) = (random.below(left + 1), random.below(4).min(left));
    let n = random.pick(&[0, left, left + 1, 255, within, few, few]);
    (request.first, request.n) = (first as u8, n as u8);
    if random.once_in(8) {
        (request.first, request.n) = (0, (blocks - 1) as u8);
    }
    request
}

/// One of these commands, addressed as it may be; all else is free.
pub fn any(random: &mut Random, commands: &[u8]) -> Request {
    let command = random.pick(commands);
    let over = 3 + random.below(253) as u8;
    let mode = random.pick(&[0, 0, 0, 1, 1, 1, 2, 2, over]);
    let over = 2 + random.below(254) as u8;
    let [first, few, far, value] = [random.byte(), random.byte() % 4, random.byte(), random.byte()];
    let size = 1 + random.below(32) as u16;
    Request {
        uid: random.number(),
        size: random.pick(&[1, 2, 4, 31, 32, size, size, size]),
        command,
        mode: if command == 0x25 { 1 } else { mode },
        option: random.pick(&[0, 0, 0, 1, 1, over]),
        first,
        n: if random.once_in(20) { random.pick(&[far, 255]) } else { few },
        value,
    }
}

/// Data for it: for another command than 21 as many as one likes.
pub fn data_for(random: &mut Random, request: &Request) -> Vec<u8> {
    let size = usize::from(request.size);
    let other = random.below(40);
    let free = random.pick(&[0, size, other]);
    random.bytes(if request.command == 0x21 { size } else { free })
}

/// A room that fits, or more.
pub fn room(random: &mut Random, needed: usize) -> usize {
    needed + if random.once_in(2) { 0 } else { random.below(40) }
}
