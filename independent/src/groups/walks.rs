//! Walks from their start, through fields and false replies, and from any
//! record that is accepted, with calls that are refused among them.

pub mod first_bytes;
pub mod kinds;
pub mod limits;
pub mod records;
pub mod refusals;
pub mod replies;

use crate::calls::Calls;
use crate::crowds::{self, make_some_foreign};
use crate::random::Random;
use crate::reference::tails::can_be_told;
use crate::reference::walk::record::{read, RECORD};
use crate::reference::walk::PLACES;
use kinds::Kinds;
use replies::Manner;

const WALKS: usize = 320;
const RECORDS: usize = 10_000;
const SLOTS_EACH: usize = 24;

/// The record and the list, as both sides are lent them.
pub struct Reader {
    record: Vec<u8>,
    list: Vec<u64>,
}

pub fn run(calls: &mut Calls, random: &mut Random) {
    let mut kinds = Kinds::new();
    for number in 0..WALKS {
        calls.null_when_empty = random.once_in(2);
        // Now and then all the way to an overrun.
        let manner = match number % 80 {
            0 => Manner::Branching,
            1..40 => Manner::True,
            _ => Manner::FalseOnceIn(random.pick(&[2, 10, 50, 400])),
        };
        from_start(calls, random, &mut kinds, manner);
    }
    for _ in 0..RECORDS {
        calls.null_when_empty = random.once_in(2);
        from_record(calls, random, &mut kinds);
    }
    calls.null_when_empty = false;
    kinds.end(&mut calls.tally);
}

fn from_start(calls: &mut Calls, random: &mut Random, kinds: &mut Kinds, manner: Manner) {
    let (name, mut uids) = crowds::any(random, crowds::MOST);
    if random.once_in(4) {
        let times = random.pick(&[1, 10, 40]);
        make_some_foreign(random, &mut uids, times);
    }
    kinds.field(name, &uids);
    let mut reader = Reader { record: random.bytes(RECORD), list: list(random) };
    calls.walk_start(&mut reader.record, records::family(random));
    while slot(calls, random, kinds, &mut reader, &uids, manner) {}
    let walk = read(&reader.record).expect("a right record");
    kinds.ended_from_start(&walk);
    // No UID is listed twice or begins otherwise, even with false replies.
    let listed = &reader.list[..walk.listed];
    let right = can_be_told(listed);
    calls.tally.count(right, || format!("listed twice, or not E0: {listed:016X?}"));
}

fn from_record(calls: &mut Calls, random: &mut Random, kinds: &mut Kinds) {
    let mut reader = Reader { record: records::accepted(random), list: list(random) };
    let manner = Manner::FalseOnceIn(random.pick(&[1, 2, 4]));
    let slots = 1 + random.below(SLOTS_EACH);
    for _ in 0..slots {
        let (_, mut uids) = crowds::any(random, 3);
        make_some_foreign(random, &mut uids, 4);
        if !slot(calls, random, kinds, &mut reader, &uids, manner) {
            break;
        }
    }
}

/// A list of 64 places or more, with anything in them.
fn list(random: &mut Random) -> Vec<u64> {
    let places = PLACES + random.pick(&[0, 0, 0, 1, 7, 192]);
    crowds::noise(random, places)
}

/// What to send, and then a slot. False once the walk has ended.
fn slot(
    calls: &mut Calls,
    random: &mut Random,
    kinds: &mut Kinds,
    reader: &mut Reader,
    uids: &[u64],
    manner: Manner,
) -> bool {
    let Reader { record, list } = reader;
    let walk = read(record).expect("a right record");
    let times = if random.once_in(10) { 3 } else { 1 };
    for _ in 0..times {
        let other = random.below(14);
        let room = random.pick(&[14, 14, 14, 15, 40, 0, 13, other]);
        let outcome = calls.walk_ask(record, room);
        kinds.asked(&walk, room, &outcome);
    }
    if random.once_in(12) {
        refusals::hearing(calls, random, kinds, record, list);
    }
    if random.once_in(12) {
        refusals::asking(calls, random, kinds, record);
    }
    let (name, heard) = replies::any(random, &walk, uids, manner);
    let outcome = calls.walk_hear(&heard, record, list);
    let after = read(record).expect("a right record");
    kinds.heard(name, &heard, &walk, &after, &outcome);
    after.ending.is_none()
}
