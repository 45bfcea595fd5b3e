//! Steps 4 to 6 of the order for a frame, and the table of commands.

use std::ops::Range;

use super::Said::{Answer, Silence};
use super::{error, success, Card, Held, Mode, Said};

pub fn request(
    card: &mut Card,
    [select, address, option]: [bool; 3],
    command: u8,
    rest: &[u8],
    memory: &mut [u8],
    locks: &mut [u8],
) -> Said {
    let body = match (select, address) {
        (true, true) => return Silence("Select and Address"),
        (false, true) if rest.len() < 8 => return Silence("cut UID"),
        (false, true) if rest[..8] == card.uid => &rest[8..],
        (false, true) if command == 0x25 && card.mode == Mode::Selected => {
            card.mode = Mode::Ready;
            return Silence("deselected");
        }
        (false, true) => return Silence("other UID"),
        (true, false) if card.mode != Mode::Selected => return Silence("Select, not Selected"),
        (false, false) if card.mode == Mode::Quiet => return Silence("neither, Quiet"),
        (_, false) => rest,
    };
    if command == 0x02 && address && body.is_empty() {
        card.mode = Mode::Quiet;
        return Silence("made Quiet");
    }
    if command == 0x02 {
        return Silence("other 02");
    }
    if command == 0x25 && !address {
        return Silence("unaddressed 25");
    }
    let outcome = obey(card, command, option, body, memory, locks);
    if option && matches!(command, 0x21 | 0x22 | 0x27..=0x2A) {
        card.held = Some(match outcome {
            Ok(_) => Held::Success,
            Err(code) => Held::Error(code),
        });
        return Silence(if outcome.is_ok() { "success held" } else { "error held" });
    }
    match outcome {
        Ok(said) => Answer("success", success(&said)),
        Err(code) => Answer("error", error(code)),
    }
}

/// The length of a listed command's body.
fn body_length(command: u8, size: usize) -> Option<usize> {
    match command {
        0x20 | 0x22 | 0x27 | 0x29 => Some(1),
        0x21 => Some(1 + size),
        0x23 | 0x2C => Some(2),
        0x25 | 0x26 | 0x28 | 0x2A | 0x2B => Some(0),
        _ => None,
    }
}

/// The bytes after 00, or the error code.
fn obey(
    card: &mut Card,
    command: u8,
    option: bool,
    body: &[u8],
    memory: &mut [u8],
    locks: &mut [u8],
) -> Result<Vec<u8>, u8> {
    let (blocks, size) = (card.blocks as usize, card.size as usize);
    if body.len() != body_length(command, size).ok_or(0x01)? {
        return Err(0x02);
    }
    if option && matches!(command, 0x25 | 0x26 | 0x2B | 0x2C) {
        return Err(0x03);
    }
    let named = named(command, body);
    if named.end > blocks {
        return Err(0x10);
    }
    let mut said = Vec::new();
    match command {
        0x20 | 0x23 => {
            for block in named {
                if option {
                    said.push(locks[block]);
                }
                said.extend(memory.chunks(size).nth(block).unwrap());
            }
        }
        0x21 if locks[named.start] == 1 => return Err(0x12),
        0x21 => memory.chunks_mut(size).nth(named.start).unwrap().copy_from_slice(&body[1..]),
        0x22 if locks[named.start] == 1 => return Err(0x11),
        0x22 => locks[named.start] = 1,
        0x25 => card.mode = Mode::Selected,
        0x26 => card.mode = Mode::Ready,
        0x27 if card.afi_locked => return Err(0x12),
        0x27 => card.afi = body[0],
        0x28 if card.afi_locked => return Err(0x11),
        0x28 => card.afi_locked = true,
        0x29 if card.dsfid_locked => return Err(0x12),
        0x29 => card.dsfid = body[0],
        0x2A if card.dsfid_locked => return Err(0x11),
        0x2A => card.dsfid_locked = true,
        0x2B => {
            said.push(0x0F);
            said.extend(card.uid);
            said.extend([card.dsfid, card.afi, (blocks - 1) as u8, (size - 1) as u8, card.ic]);
        }
        _ => said.extend(&locks[named]),
    }
    Ok(said)
}

/// The blocks a rightly long body names; n stands for n + 1 of them.
fn named(command: u8, body: &[u8]) -> Range<usize> {
    match (command, body) {
        (0x20..=0x22, [block, ..]) => *block as usize..*block as usize + 1,
        (0x23 | 0x2C, [first, n]) => *first as usize..*first as usize + *n as usize + 1,
        _ => 0..0,
    }
}
