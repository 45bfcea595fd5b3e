//! Step 3 of the order for a frame, and the slots.

use super::Said::{Answer, Silence};
use super::{Card, Mode, Said, Sequence};
use crate::reference::check::{bits_of, sealed};

pub fn take_inventory(card: &mut Card, family: bool, one: bool, command: u8, body: &[u8]) -> Said {
    if card.mode == Mode::Quiet {
        return Silence("inventory when Quiet");
    }
    if command != 0x01 {
        return Silence("inventory, command not 01");
    }
    let too_short = Silence("inventory, wrong length");
    let (afi, rest) = match (family, body) {
        (false, rest) => (0, rest),
        (true, [afi, rest @ ..]) => (*afi, rest),
        (true, []) => return too_short,
    };
    let [length, mask @ ..] = rest else { return too_short };
    let length = *length as usize;
    if length > if one { 64 } else { 60 } {
        return Silence("inventory, mask too long");
    }
    if mask.len() != length.div_ceil(8) {
        return Silence("inventory, wrong length");
    }
    if !calls(afi, card.afi) {
        return Silence("inventory, other family");
    }
    let mask: Vec<bool> = mask.iter().flat_map(|&byte| bits_of(byte)).take(length).collect();
    if !one {
        card.sequence = Some(Sequence { slot: 0, mask });
        return in_slot(card);
    }
    if begins_with(card, mask.into_iter()) {
        Answer("one slot, mask fits", presence(card))
    } else {
        Silence("one slot, mask does not fit")
    }
}

/// Whether an asked AFI calls a card of its own: ISO/IEC 15693-3:2009, Table 1,
/// over the digits as they are written. 00 stands for no AFI too.
fn calls(asked: u8, own: u8) -> bool {
    let [asked, own] = [asked, own].map(|afi| format!("{afi:02X}"));
    match &asked.chars().collect::<Vec<char>>()[..] {
        ['0', '0'] => true,
        [family, '0'] => own.starts_with(*family),
        // X Y and 0 Y.
        _ => own == asked,
    }
}

/// What the card says in the running sequence's slot.
pub fn in_slot(card: &Card) -> Said {
    let Some(Sequence { slot, mask }) = &card.sequence else { unreachable!() };
    let mask = mask.iter().copied();
    if begins_with(card, mask.clone().chain(bits_of(*slot).take(4))) {
        Answer("slot fits", presence(card))
    } else if begins_with(card, mask) {
        Silence("other slot")
    } else {
        Silence("sixteen slots, mask does not fit")
    }
}

/// Whether the UID's lowest bits are these.
fn begins_with(card: &Card, mut bits: impl Iterator<Item = bool>) -> bool {
    let mut uid = card.uid.iter().flat_map(|&byte| bits_of(byte));
    bits.all(|bit| uid.next() == Some(bit))
}

fn presence(card: &Card) -> Vec<u8> {
    sealed(&[&[0x00, card.dsfid], &card.uid[..]].concat())
}
