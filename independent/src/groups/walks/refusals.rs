//! Calls that are refused, for each cause and for several at once.

use super::kinds::Kinds;
use super::records;
use crate::calls::Calls;
use crate::random::Random;
use crate::reference::walk::record::at;
use crate::reference::walk::{Heard, LEVELS, PLACES};

/// The clauses of number 10.
pub const CLAUSES: [&str; 8] = [
    "level over 13",
    "slot over 15",
    "count over 64",
    "rounds 0",
    "rounds over 417",
    "mask bits above its length",
    "mark at a deeper level",
    "mark at the last level",
];

/// The endings, as a record may hold them.
pub const ENDINGS: [(&str, &[u8]); 5] = [
    ("after complete", &[1]),
    ("after twins", &[2]),
    ("after full", &[3]),
    ("after overrun", &[4]),
    ("after overrun in other bytes", &[5, 16, 128, 255]),
];

pub const LISTS: [&str; 3] = ["63 places", "fewer places", "no places"];

pub const HEARINGS: [&str; 3] = ["silence", "clash", "bytes"];

/// A running walk: the record at hand, or another.
fn running(random: &mut Random, record: &[u8]) -> Vec<u8> {
    let mut record = if random.once_in(2) { records::accepted(random) } else { record.to_vec() };
    record[at::ENDING] = 0;
    record
}

pub fn hearing(
    calls: &mut Calls,
    random: &mut Random,
    kinds: &mut Kinds,
    record: &[u8],
    list: &[u64],
) {
    let (mut record, mut list) = (running(random, record), list.to_vec());
    let (ending, bytes) = random.pick(&ENDINGS);
    let clause = random.pick(&CLAUSES);
    let short = random.pick(&LISTS);
    let (number, cause) = match random.below(5) {
        0 => {
            break_clause(random, clause, &mut record);
            (10, clause)
        }
        1 => {
            record[at::ENDING] = random.pick(bytes);
            (6, ending)
        }
        2 => {
            shorten(random, short, &mut list);
            (5, short)
        }
        3 => {
            record[at::ENDING] = random.pick(bytes);
            shorten(random, short, &mut list);
            (6, "before 5")
        }
        _ => {
            break_clause(random, clause, &mut record);
            record[at::ENDING] = random.pick(bytes);
            shorten(random, short, &mut list);
            (10, "before 6 and 5")
        }
    };
    let way = random.pick(&HEARINGS);
    let heard = match way {
        "silence" => Heard::Silence,
        "clash" => Heard::Clash,
        _ => Heard::Bytes(random.bytes(12)),
    };
    let outcome = calls.walk_hear(&heard, &mut record, &mut list);
    if outcome.is_err_and(|refusal| refusal as u8 == number) {
        kinds.refused_hearing(number, cause, way);
    }
}

pub fn asking(calls: &mut Calls, random: &mut Random, kinds: &mut Kinds, record: &[u8]) {
    let mut record = running(random, record);
    let clause = random.pick(&CLAUSES);
    break_clause(random, clause, &mut record);
    // An ended walk is looked at too.
    record[at::ENDING] = random.pick(&[0, 0, 1, 2, 3, 4, 255]);
    let short = random.once_in(2);
    let room = if short { random.below(14) } else { 14 + random.below(30) };
    let cause = if short { "before 8" } else { clause };
    let outcome = calls.walk_ask(&record, room);
    if outcome.is_err_and(|refusal| refusal as u8 == 10) {
        kinds.refused_asking(cause);
    }
}

fn shorten(random: &mut Random, cause: &str, list: &mut Vec<u64>) {
    list.truncate(match cause {
        "63 places" => PLACES - 1,
        "no places" => 0,
        _ => 1 + random.below(PLACES - 2),
    });
}

/// Breaks this clause and no other.
pub fn break_clause(random: &mut Random, clause: &str, record: &mut [u8]) {
    let high = random.byte();
    let far = 1u16 << (9 + random.below(7));
    match clause {
        "level over 13" => record[at::LEVEL] = random.pick(&[14, 15, 16, 17, 255, 16 | high]),
        "slot over 15" => record[at::SLOT] = random.pick(&[16, 17, 32, 255, 16 | high]),
        "count over 64" => record[at::COUNT] = random.pick(&[65, 66, 128, 255, 128 | high]),
        "rounds 0" => record[at::ROUNDS].fill(0),
        "rounds over 417" => {
            let rounds = random.pick(&[418, 419, 480, 481, 512, 0xFFFF, far, far + 1]);
            record[at::ROUNDS].copy_from_slice(&u16::to_le_bytes(rounds));
        }
        "mask bits above its length" => {
            let length = 4 * usize::from(record[at::LEVEL]);
            let bit = random.pick(&[length, 63, length + usize::from(high) % (64 - length)]);
            record[at::MASK][bit / 8] |= 1 << (bit % 8);
        }
        "mark at a deeper level" => {
            let level = usize::from(record[at::LEVEL]).min(random.below(LEVELS - 2));
            record[at::LEVEL] = level as u8;
            record[at::MASK].fill(0);
            record[at::MARKS][2 + 2 * level..].fill(0);
            let deeper = level + 1 + random.below(LEVELS - 2 - level);
            mark(random, record, deeper);
        }
        "mark at the last level" => {
            record[at::LEVEL] = LEVELS as u8 - 1;
            mark(random, record, LEVELS - 1);
        }
        _ => unreachable!(),
    }
}

fn mark(random: &mut Random, record: &mut [u8], level: usize) {
    record[at::MARKS][2 * level + random.below(2)] |= 1 << random.below(8);
}
