//! Records at the limits of number 10: for every part the last values that are
//! accepted and the first that are not, and every bit of masks and marks.

use super::records::family;
use super::replies::{fitting, reply};
use crate::calls::Calls;
use crate::crowds::noise;
use crate::groups::counts::Counts;
use crate::groups::shared::marks;
use crate::random::Random;
use crate::reference::shared::MOST;
use crate::reference::walk::record::{at, read, write, RECORD};
use crate::reference::walk::{Heard, Walk, LEVELS, PLACES, REQUEST_ROOM};
use crate::reference::Refusal;

const LEVELS_TRIED: [u8; 21] =
    [0, 1, 2, 3, 4, 5, 6, 7, 8, 9, 10, 11, 12, 13, 14, 15, 16, 17, 32, 128, 255];
const SLOTS_TRIED: [u8; 10] = [0, 1, 13, 14, 15, 16, 17, 32, 128, 255];
const COUNTS_TRIED: [u8; 12] = [0, 1, 13, 14, 39, 40, 41, 63, 64, 65, 128, 255];
const ROUNDS_TRIED: [u16; 15] =
    [0, 1, 255, 256, 415, 416, 417, 418, 419, 480, 481, 482, 511, 512, 65535];
const ENDINGS: [u8; 3] = [0, 1, 255];

pub fn run(calls: &mut Calls, random: &mut Random) {
    let mut counts = expected();
    let mut limits = |part: &str, right: bool, change: &dyn Fn(&mut [u8]), from: u8| {
        counts.row(&format!("{part}, {}", if right { "accepted" } else { "refused" }));
        for ending in ENDINGS {
            let mut record = running(random, from);
            change(&mut record);
            record[at::ENDING] = ending;
            try_record(calls, random, &record, right);
        }
    };
    for level in LEVELS_TRIED {
        limits("level", level <= 13, &|record| record[at::LEVEL] = level, 0);
    }
    for own in 0..LEVELS as u8 {
        for slot in SLOTS_TRIED {
            limits("slot", slot <= 15, &|record| record[at::SLOT] = slot, own);
        }
        for count in COUNTS_TRIED {
            limits("count", count <= 64, &|record| record[at::COUNT] = count, own);
        }
        for rounds in ROUNDS_TRIED {
            let right = (1..=417).contains(&rounds);
            let bytes = rounds.to_le_bytes();
            limits("rounds", right, &|record| record[at::ROUNDS].copy_from_slice(&bytes), own);
        }
        for bit in 0..64 {
            let set = |record: &mut [u8]| record[at::MASK][bit / 8] |= 1 << (bit % 8);
            limits("mask bit", bit < 4 * usize::from(own), &set, own);
        }
        for level in 0..LEVELS {
            let right = level <= usize::from(own) && level <= 12;
            for bit in 0..16 {
                let set = |record: &mut [u8]| record[2 * level + bit / 8] |= 1 << (bit % 8);
                limits("mark", right, &set, own);
            }
        }
    }
    counts.end(&mut calls.tally, "records at the limits");
}

/// A record of this level with no bit of its mask and no mark, in its last slot or
/// another.
fn running(random: &mut Random, level: u8) -> Vec<u8> {
    let walk = Walk {
        mask: vec![0; level.into()],
        slot: random.pick(&[0, 15, 15, 7]),
        rounds: random.pick(&[1, 416, 417]),
        listed: random.pick(&[0, 1, MOST - 1, MOST]),
        ..Walk::start(family(random))
    };
    let mut record = vec![0; RECORD];
    write(&walk, &mut record);
    record
}

/// Every call that is lent the record. It is refused with 10 exactly if the
/// record is not right, or if it has more listed than a rack can hold.
fn try_record(calls: &mut Calls, random: &mut Random, record: &[u8], right: bool) {
    let said = |outcome: Result<(), Refusal>| outcome != Err(Refusal::Walk);
    for room in [REQUEST_ROOM, REQUEST_ROOM - 1] {
        let outcome = calls.walk_ask(record, room).map(|_| ());
        agree(calls, record, said(outcome) == right, "asked");
    }
    let count = record[at::COUNT].into();
    let uid = match read(record) {
        Ok(walk) => fitting(random, &walk),
        Err(_) => crate::crowds::any_uid(random),
    };
    let clean = Heard::Bytes(reply(random, uid));
    for heard in [Heard::Silence, Heard::Clash, clean] {
        let mut list = noise(random, PLACES);
        let outcome = calls.walk_hear(&heard, &mut record.to_vec(), &mut list);
        agree(calls, record, said(outcome) == right, "heard");

        let rack = random.below(2);
        let owned = MOST.min(count);
        let mut marks = marks(random, if rack == 0 { [owned, 0] } else { [0, owned] });
        let (rack, mut rows) = (rack as u32, noise(random, PLACES));
        let outcome = calls.shared_hear(&heard, rack, &mut record.to_vec(), &mut rows, &mut marks);
        let ended = record[at::ENDING] != 0;
        agree(
            calls,
            record,
            said(outcome) == (right && (ended || count <= MOST)),
            "heard by a rack",
        );
    }
}

fn agree(calls: &mut Calls, record: &[u8], right: bool, call: &str) {
    calls.tally.count(right, || format!("{call}, the reference takes the record {record:02X?}"));
}

/// How many of each must be accepted, and how many refused.
fn expected() -> Counts {
    let mut counts = Counts::default();
    let levels = LEVELS as u64;
    // Of a level's mask bits 4 for each digit; of its marks those up to the level,
    // but none of the last.
    let bits: u64 = (0..levels).map(|level| 4 * level).sum();
    let marks: u64 = (0..levels).map(|level| 16 * (level + 1).min(levels - 1)).sum();
    let rows = [
        ("level", 14, 7),
        ("slot", 5 * levels, 5 * levels),
        ("count", 9 * levels, 3 * levels),
        ("rounds", 6 * levels, 9 * levels),
        ("mask bit", bits, 64 * levels - bits),
        ("mark", marks, 16 * levels * levels - marks),
    ];
    for (part, accepted, refused) in rows {
        counts.expect_times(format!("{part}, accepted"), accepted..=accepted);
        counts.expect_times(format!("{part}, refused"), refused..=refused);
    }
    counts
}
