//! Whether what the board's call shows is what the card holds: its memory, its
//! locks and its record, looked up where they stand.

use crate::board::reader::{BLOCKS, DONE, ERROR, INFORMATION, LOCKS};
use crate::calls::reader::Shown;
use crate::reference::card::Mode;
use crate::reference::reader::{Information, Request};
use crate::reference::record::{read, Tag};

/// The tag is given as it was before the request and as it is after.
pub fn is_so(request: &Request, data: &[u8], [before, after]: [&Tag; 2], shown: &Shown) -> bool {
    let [old, new] = [before, after].map(|tag| read(&tag.record).expect("a right record"));
    let &Request { command, value, .. } = request;
    let (size, first) = (old.size as usize, usize::from(request.first));
    let many = if matches!(command, 0x23 | 0x2C) { usize::from(request.n) + 1 } else { 1 };
    let (memory, locks) = (first * size..(first + many) * size, first..first + many);
    let alike = usize::from(request.size) == size;
    let option = request.has_option();
    let locked = match command {
        0x21 | 0x22 => before.locks.get(first) == Some(&1),
        0x27 | 0x28 => old.afi_locked,
        _ => old.dsfid_locked,
    };

    let answer = shown.reading.answer;
    let information = shown.reading.information;
    if answer < 0 {
        return answer == -11 && !alike && matches!(command, 0x20 | 0x23);
    }
    let (kind, amount) = (answer / 65536, (answer % 65536) as usize);
    if kind != INFORMATION && information != Information::default() {
        return false;
    }
    match (kind, command) {
        (DONE, _) if amount != 0 => false,
        (DONE, 0x21) => !locked && after.memory.get(memory) == Some(data),
        (DONE, 0x22) => !locked && after.locks.get(locks) == Some(&[1]),
        (DONE, 0x25) => new.mode == Mode::Selected,
        (DONE, 0x26) => new.mode == Mode::Ready,
        (DONE, 0x27) => !locked && new.afi == value,
        (DONE, 0x28) => !locked && new.afi_locked,
        (DONE, 0x29) => !locked && new.dsfid == value,
        (DONE, 0x2A) => !locked && new.dsfid_locked,
        (BLOCKS, 0x20 | 0x23) => {
            amount == many * size
                && same(shown.blocks.get(..amount), before.memory.get(memory))
                && (!option || same(shown.locks.get(..many), before.locks.get(locks)))
        }
        (LOCKS, 0x2C) => amount == many && same(shown.locks.get(..amount), before.locks.get(locks)),
        (INFORMATION, 0x2B) => {
            amount == 0
                && information.uid.to_le_bytes() == before.record[..8]
                && information.blocks.to_le_bytes() == before.record[8..10]
                && information.size.to_le_bytes() == before.record[12..14]
                && information.afi == before.record[16]
                && information.dsfid == before.record[17]
                && information.ic == before.record[20]
                && information.flags == 0x0F
        }
        (ERROR, _) => {
            let [was, is] = [&old, &new]
                .map(|card| (card.afi, card.dsfid, card.afi_locked, card.dsfid_locked, card.mode));
            let stays = was == is && before.memory == after.memory && before.locks == after.locks;
            let cause = match (amount, command) {
                (0x02, 0x21) => !alike,
                (0x03, 0x25 | 0x26 | 0x2B | 0x2C) => option,
                (0x10, 0x20..=0x23 | 0x2C) => first + many > old.blocks as usize,
                (0x11, 0x22 | 0x28 | 0x2A) => locked,
                (0x12, 0x21 | 0x27 | 0x29) => locked,
                _ => false,
            };
            stays && cause
        }
        _ => false,
    }
}

fn same(shown: Option<&[u8]>, kept: Option<&[u8]>) -> bool {
    shown.is_some() && shown == kept
}
