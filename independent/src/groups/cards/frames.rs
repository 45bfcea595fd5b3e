//! Frames for a card, most of them almost right or right.

use super::tags::mask;
use crate::random::Random;
use crate::reference::card::Card;
use crate::reference::check::sealed;

/// The commands with a rule of their own, and two that have none.
pub const COMMANDS: [u8; 15] =
    [0x01, 0x02, 0x20, 0x21, 0x22, 0x23, 0x24, 0x25, 0x26, 0x27, 0x28, 0x29, 0x2A, 0x2B, 0x2C];

pub fn any(random: &mut Random, card: &Card) -> Vec<u8> {
    if random.once_in(60) {
        let length = random.below(72);
        return random.bytes(length);
    }
    let mut message =
        if random.below(10) < 3 { inventory(random, card) } else { request(random, card) };
    message[0] |= random.below(4) as u8;
    if random.once_in(40) {
        message[0] |= random.pick(&[0x08, 0x80, 0x88]);
    }
    if random.once_in(40) {
        other_length(random, &mut message);
    }
    let mut frame = sealed(&message);
    match random.below(80) {
        0 | 1 => {
            let turned = random.below(8 * frame.len());
            frame[turned / 8] ^= 1 << (turned % 8);
        }
        2 => frame.truncate(random.below(frame.len())),
        3 => frame.push(random.byte()),
        4 => {
            let more = random.pick(&[62, 63, 64, 65, 100, 256, 320]);
            message.resize(more, 0);
            frame = sealed(&message);
        }
        _ => {}
    }
    frame
}

fn other_length(random: &mut Random, bytes: &mut Vec<u8>) {
    match random.below(3) {
        0 => bytes.truncate(random.below(bytes.len() + 1)),
        1 => bytes.truncate(bytes.len().saturating_sub(1)),
        _ => bytes.push(random.byte()),
    }
}

fn inventory(random: &mut Random, card: &Card) -> Vec<u8> {
    let (family, one) = (random.once_in(2), random.once_in(3));
    let mut message = vec![0x04, 0x01];
    if random.once_in(30) {
        message[1] = random.pick(&[0x00, 0x02, 0x20, 0x2B, 0x81]);
    }
    if family {
        message[0] |= 0x10;
        message.push(asked(random, card.afi));
    }
    if one {
        message[0] |= 0x20;
    }
    if random.once_in(30) {
        message[0] |= 0x40;
    }
    let other = random.below(68);
    let length = random.pick(&[0, 4, 12, 59, 60, 61, 64, 65, 255, other, other, other, other]);
    message.push(length as u8);
    let mut bits = mask(&card.uid, length.min(64));
    bits.resize(length.div_ceil(8), 0);
    if length > 0 && random.once_in(4) {
        let turned = if random.once_in(2) { length - 1 } else { random.below(length) };
        bits[turned / 8] ^= 1 << (turned % 8);
    }
    if 8 * bits.len() > length && random.once_in(2) {
        // Padding that is not zero, or that goes on as the UID does.
        let last = bits.len() - 1;
        let padding = if random.once_in(2) { random.byte() } else { card.uid[last.min(7)] };
        let worth = 1 << (length % 8);
        bits[last] = bits[last] % worth + padding / worth * worth;
    }
    message.extend(bits);
    // An honest frame has place for no more than this.
    message.truncate(62);
    message
}

/// The card's AFI, with a digit or both made 0, changed or moved: every row of
/// Table 1, of a family that calls the card or does not.
fn asked(random: &mut Random, own: u8) -> u8 {
    let (high, low) = (own & 0xF0, own & 0x0F);
    let other = 1 + random.below(15) as u8;
    let turned = 16 * other;
    match random.below(6) {
        0 => 0x00,
        1 => own,
        2 => random.pick(&[own ^ other, own ^ turned]),
        3 => high,
        4 => random.pick(&[high ^ turned, low << 4]),
        _ => random.pick(&[low, low ^ other, high >> 4]),
    }
}

fn request(random: &mut Random, card: &Card) -> Vec<u8> {
    let mut command = random.pick(&COMMANDS);
    if random.once_in(30) {
        command = random.byte();
    }
    let mut message = vec![if random.once_in(3) { 0x40 } else { 0x00 }, command];
    match random.below(20) {
        0..=8 => message[0] |= 0x20,
        9..=12 => message[0] |= 0x10,
        13 => message[0] |= 0x30,
        _ => {}
    }
    if message[0] & 0x20 > 0 {
        // Command 25 looks at another card's UID.
        let times = if command == 0x25 { 2 } else { 6 };
        message.extend(uid(random, card, times));
    }
    let mut body = body(random, card, command);
    if random.once_in(8) {
        other_length(random, &mut body);
    }
    message.extend(body);
    message
}

/// The card's UID; about once in `times` another one, or not a whole one.
fn uid(random: &mut Random, card: &Card, times: usize) -> Vec<u8> {
    let mut uid = card.uid.to_vec();
    if !random.once_in(times) {
        return uid;
    }
    match random.below(8) {
        0 => uid.truncate(random.below(8)),
        1 => uid.reverse(),
        _ => {
            let turned = random.below(64);
            uid[turned / 8] ^= 1 << (turned % 8);
        }
    }
    uid
}

fn body(random: &mut Random, card: &Card, command: u8) -> Vec<u8> {
    let blocks = card.blocks as usize;
    let inside = random.below(blocks);
    let first = random.pick(&[0, blocks - 1, blocks, 255, inside, inside, inside, inside]);
    match command {
        0x20 | 0x22 => vec![first as u8],
        0x21 => [vec![first as u8], random.bytes(card.size as usize)].concat(),
        0x23 | 0x2C => {
            let left = (blocks - 1).saturating_sub(first);
            let within = random.below(left + 1);
            let n = random.pick(&[0, left, left + 1, 255, within, within]);
            vec![first as u8, n as u8]
        }
        0x27 => {
            let other = random.byte();
            vec![random.pick(&[0, card.afi, other])]
        }
        0x29 => random.bytes(1),
        0x02 | 0x25 | 0x26 | 0x28 | 0x2A | 0x2B => Vec::new(),
        _ => {
            let length = random.below(4);
            random.bytes(length)
        }
    }
}
