//! Calls that are refused, for each cause and for several at once.

use super::frames;
use super::kinds::Kinds;
use super::tags::needed;
use crate::calls::Calls;
use crate::random::Random;
use crate::reference::record::{read, Event, Tag};

/// A cause, and the number it gives.
pub const CAUSES: [(u8, &str); 17] = [
    (1, "record length"),
    (1, "no blocks"),
    (1, "over 256 blocks"),
    (1, "block size 0"),
    (1, "block size over 32"),
    (1, "slot over 15"),
    (1, "mask length over 60"),
    (1, "bits above the mask"),
    (1, "held code"),
    (2, "memory length"),
    (2, "lock length"),
    (3, "lock byte"),
    (4, "room one short"),
    (4, "room far short"),
    (1, "before 2, 3 and 4"),
    (2, "before 3 and 4"),
    (3, "before 4"),
];

pub fn one(calls: &mut Calls, random: &mut Random, kinds: &mut Kinds, tag: &Tag) {
    let card = read(&tag.record).expect("a right record");
    let event = match random.below(4) {
        0 => Event::Mark,
        1 => Event::PowerOff,
        _ => Event::Frame(frames::any(random, &card)),
    };
    let (number, cause) = random.pick(&CAUSES);
    let (mut tag, mut room) = (tag.clone(), needed(tag));
    let all: &[&str] = match cause {
        "before 2, 3 and 4" => &["record length", "memory length", "lock byte", "room far short"],
        "before 3 and 4" => &["memory length", "lock byte", "room one short"],
        "before 4" => &["lock byte", "room one short"],
        _ => &[cause],
    };
    for cause in all {
        break_one(random, cause, &mut tag, &mut room);
    }
    let outcome = calls.card(&event, &mut tag, room);
    kinds.refused(&event, number, cause, &outcome);
}

fn break_one(random: &mut Random, cause: &str, tag: &mut Tag, room: &mut usize) {
    let record = &mut tag.record;
    let far = 1 << random.below(31);
    let high = random.byte();
    match cause {
        "record length" => record.resize(random.pick(&[0, 1, 8, 38, 39, 41, 42, 80, 296]), 0),
        "no blocks" => number(&mut record[8..12], 0),
        "over 256 blocks" => number(&mut record[8..12], random.pick(&[257, 258, 512, 256 + far])),
        "block size 0" => number(&mut record[12..16], 0),
        "block size over 32" => {
            number(&mut record[12..16], random.pick(&[33, 34, 64, 256 + 4, 32 + far]));
        }
        "slot over 15" => {
            running(random, record);
            record[23] = random.pick(&[16, 17, 32, 255, 16 | high]);
        }
        "mask length over 60" => {
            running(random, record);
            record[24] = random.pick(&[61, 62, 63, 64, 65, 128, 255]);
        }
        "bits above the mask" => {
            running(random, record);
            let length = random.below(61);
            let bit = random.pick(&[length, 63, length + high as usize % (64 - length)]);
            record[24] = length as u8;
            record[32 + bit / 8] |= 1 << (bit % 8);
        }
        "held code" => {
            record[25] = random.pick(&[3, 10, 11, 12, 15, 0x0F, 0x13, 0x14, 0x92, 0xFF]);
        }
        "memory length" => other_length(random, &mut tag.memory),
        "lock length" => other_length(random, &mut tag.locks),
        "lock byte" => {
            let last = tag.locks.len() - 1;
            let place = random.pick(&[0, last, high as usize % tag.locks.len()]);
            tag.locks[place] = random.pick(&[2, 3, 128, 255, 2 | high]);
        }
        "room one short" => *room -= 1,
        "room far short" => *room = random.below(*room),
        _ => unreachable!(),
    }
}

fn number(place: &mut [u8], number: u32) {
    place.copy_from_slice(&number.to_le_bytes());
}

/// A right sequence, from slot 0 and with no mask.
fn running(random: &mut Random, record: &mut [u8]) {
    record[22] = random.pick(&[1, 1, 2, 255]);
    record[23..25].fill(0);
    record[32..].fill(0);
}

fn other_length(random: &mut Random, bytes: &mut Vec<u8>) {
    let right = bytes.len();
    bytes.resize(random.pick(&[0, right - 1, right + 1, 2 * right, right + 256]), 0);
}
