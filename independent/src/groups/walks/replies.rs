//! What is heard in a slot: the field's own replies, and false ones.

use crate::crowds::{any_uid, digit, other_first_byte, with_digit, with_first_byte};
use crate::random::Random;
use crate::reference::check::sealed;
use crate::reference::walk::{Heard, Walk, LEVELS};

#[derive(Clone, Copy)]
pub enum Manner {
    True,
    FalseOnceIn(usize),
    /// Clashes down to the last level, and silence there.
    Branching,
}

pub const TRUE: [&str; 3] = ["true silence", "true reply", "true clash"];

pub const FALSE: [&str; 17] = [
    "false silence",
    "false clash",
    "invented UID",
    "one check bit wrong",
    "check bytes swapped",
    "wrong flags",
    "no bytes",
    "11 bytes",
    "13 bytes",
    "a reply cut",
    "a reply and more bytes",
    "UID of another slot",
    "UID of another mask",
    "slot digit below the mask",
    "UID with another first byte",
    "12 bytes of garbage",
    "long garbage",
];

pub fn any(
    random: &mut Random,
    walk: &Walk,
    uids: &[u64],
    manner: Manner,
) -> (&'static str, Heard) {
    match manner {
        Manner::Branching if walk.mask.len() == LEVELS - 1 => ("false silence", Heard::Silence),
        Manner::Branching => ("false clash", Heard::Clash),
        Manner::FalseOnceIn(times) if random.once_in(times) => falsely(random, walk),
        _ => truly(random, walk, uids),
    }
}

fn truly(random: &mut Random, walk: &Walk, uids: &[u64]) -> (&'static str, Heard) {
    let answering: Vec<&u64> = uids.iter().filter(|uid| fits(walk, **uid)).collect();
    match answering[..] {
        [] => ("true silence", Heard::Silence),
        [uid] => ("true reply", Heard::Bytes(reply(random, *uid))),
        _ => ("true clash", Heard::Clash),
    }
}

pub fn falsely(random: &mut Random, walk: &Walk) -> (&'static str, Heard) {
    let name = random.pick(&FALSE);
    let level = walk.mask.len();
    let uid = fitting(random, walk);
    let mut right = reply(random, uid);
    let turned = 1 + random.below(15) as u64;
    let bytes = match name {
        "false silence" => return (name, Heard::Silence),
        "false clash" => return (name, Heard::Clash),
        "invented UID" => right,
        "one check bit wrong" => {
            right[10 + random.below(2)] ^= 1 << random.below(8);
            right
        }
        "check bytes swapped" => {
            right.swap(10, 11);
            right
        }
        "wrong flags" => {
            right[0] = 1 << random.below(8);
            sealed(&right[..10])
        }
        "no bytes" => Vec::new(),
        "11 bytes" => sealed(&right[..9]),
        "13 bytes" => {
            right[10] = random.byte();
            sealed(&right[..11])
        }
        "a reply cut" => right[..random.below(12)].to_vec(),
        "a reply and more bytes" => {
            let more = random.pick(&[1, 12, 244, 256, 65_536]);
            right.extend(random.bytes(more));
            right
        }
        "UID of another slot" => {
            let other = with_digit(uid, level, digit(uid, level) ^ turned);
            reply(random, other)
        }
        "UID of another mask" if level > 0 => {
            let place = random.below(level);
            let other = with_digit(uid, place, digit(uid, place) ^ turned);
            reply(random, other)
        }
        "slot digit below the mask" if level > 0 => {
            let other = (0..level)
                .fold(uid, |uid, place| with_digit(uid, place + 1, walk.mask[place].into()));
            reply(random, with_digit(other, 0, walk.slot.into()))
        }
        "UID with another first byte" => {
            let first = other_first_byte(random);
            reply(random, with_first_byte(uid, first))
        }
        "long garbage" => {
            let length = random.pick(&[14, 64, 65, 267, 268, 269, 300]);
            sealed(&random.bytes(length - 2))
        }
        _ => return ("12 bytes of garbage", Heard::Bytes(random.bytes(12))),
    };
    (name, Heard::Bytes(bytes))
}

/// Whether the UID fits mask and slot.
pub fn fits(walk: &Walk, uid: u64) -> bool {
    let mut digits = walk.mask.iter().chain([&walk.slot]).enumerate();
    digits.all(|(place, &asked)| digit(uid, place) == u64::from(asked))
}

/// A UID that fits mask and slot and begins with E0.
pub fn fitting(random: &mut Random, walk: &Walk) -> u64 {
    let digits = walk.mask.iter().chain([&walk.slot]).enumerate();
    digits.fold(any_uid(random), |uid, (place, &digit)| with_digit(uid, place, digit.into()))
}

pub fn reply(random: &mut Random, uid: u64) -> Vec<u8> {
    sealed(&[&[0x00, random.byte()], &uid.to_le_bytes()[..]].concat())
}
