//! Two racks over one list: their walks from starts, through fields and false
//! replies, and from any records and marks that are accepted, with starts at
//! every moment and calls that are refused among them.

pub mod fields;

mod arm;
mod kinds;
mod reasons;
mod refusals;

use crate::calls::Calls;
use crate::crowds::{self, make_some_foreign, shuffle};
use crate::groups::fields::families;
use crate::groups::walks::records::family;
use crate::groups::walks::replies::{self, falsely, fits, fitting, reply, Manner, TRUE};
use crate::random::Random;
use crate::reference::card::Card;
use crate::reference::field::{self, card, together};
use crate::reference::tails::can_be_told;
use crate::reference::walk::{Heard, REQUEST_ROOM};
pub use arm::marks;
use arm::Arm;
use kinds::Kinds;

const FROM_STARTS: usize = 120;
const SLOTS_EACH: usize = 900;
const FROM_RECORDS: usize = 16_000;
const STEPS_EACH: usize = 24;
const STARTS: usize = 1_000;
/// More than a rack may hold.
const CARDS: usize = 50;

pub fn run(calls: &mut Calls, random: &mut Random) {
    let mut kinds = Kinds::new();
    for _ in 0..FROM_STARTS {
        calls.null_when_empty = random.once_in(2);
        from_starts(calls, random, &mut kinds);
    }
    for _ in 0..FROM_RECORDS {
        calls.null_when_empty = random.once_in(2);
        from_records(calls, random, &mut kinds);
    }
    for _ in 0..STARTS {
        let mut arm = Arm::before_starts(random);
        let families = [family(random), family(random)];
        start_both(calls, random, &mut kinds, &mut arm, families);
    }
    calls.null_when_empty = false;
    kinds.end(&mut calls.tally);
}

/// The reference's cards at a rack, what is asked for there, and how often what
/// is heard is false.
struct Field {
    family: u16,
    cards: Vec<Card>,
    false_once_in: Option<usize>,
}

impl Field {
    /// Some of these UIDs, or others.
    fn any(random: &mut Random, uids: &[u64]) -> Field {
        let mut uids = if random.once_in(3) { crowd(random) } else { uids.to_vec() };
        shuffle(random, &mut uids);
        if random.once_in(3) {
            uids.truncate(random.below(CARDS));
        }
        if random.once_in(4) {
            let times = random.pick(&[2, 10, 40]);
            make_some_foreign(random, &mut uids, times);
        }
        let (family, afis) = families::any(random);
        let mixed = random.once_in(4);
        let cards = uids.into_iter().map(|uid| {
            let afi = if mixed { random.pick(&afis) } else { afis[0] };
            Card { afi, dsfid: random.byte(), ..card(uid) }
        });
        let cards = cards.collect();
        Field { family, cards, false_once_in: random.pick(&[None, None, Some(5), Some(50)]) }
    }
}

fn crowd(random: &mut Random) -> Vec<u64> {
    match random.below(2) {
        0 => crowds::any(random, CARDS).1,
        _ => crowds::random_ones(random, CARDS),
    }
}

/// Two racks from their starts on, with fields of cards.
fn from_starts(calls: &mut Calls, random: &mut Random, kinds: &mut Kinds) {
    let mut arm = Arm::before_starts(random);
    let uids = crowd(random);
    let mut fields = [(); 2].map(|()| Field::any(random, &uids));
    let families = fields.each_ref().map(|field| field.family);
    start_both(calls, random, kinds, &mut arm, families);
    let restless = random.pick(&[40, 2000]);
    for _ in 0..SLOTS_EACH {
        let rack = random.below(2);
        let ended = arm.walk(rack).ending.is_some();
        if random.once_in(if ended { 6 } else { restless }) {
            fields[rack] = Field::any(random, &uids);
            start(calls, kinds, &mut arm, rack, fields[rack].family);
        }
        if random.once_in(8) {
            refusals::hearing(calls, random, kinds, &arm, rack);
        }
        if arm.walk(rack).ending.is_none() {
            slot(calls, random, kinds, &mut arm, rack, &mut fields[rack]);
        }
    }
}

/// What to send, and what the cards say to it.
fn slot(
    calls: &mut Calls,
    random: &mut Random,
    kinds: &mut Kinds,
    arm: &mut Arm,
    rack: usize,
    field: &mut Field,
) {
    let walk = arm.walk(rack);
    let sent = calls.walk_ask(&arm.records[rack], REQUEST_ROOM).expect("room enough");
    let replies = field.cards.iter_mut().filter_map(|card| field::reply(card, &sent));
    let replies: Vec<Vec<u8>> = replies.collect();
    let (name, heard) = match field.false_once_in {
        Some(times) if random.once_in(times) => falsely(random, &walk),
        _ => (TRUE[replies.len().min(2)], together(&replies)),
    };
    hear(calls, kinds, arm, rack, name, &heard);
    if let Some(ending) = arm.walk(rack).ending {
        kinds.ended_from_start(ending);
        // No UID is listed twice in a walk or begins otherwise, even with false
        // replies.
        let listed = arm.list().of(rack as u8);
        let right = can_be_told(&listed);
        calls.tally.count(right, || format!("listed twice, or not E0: {listed:016X?}"));
    }
}

/// Two racks from any records that fit the list.
fn from_records(calls: &mut Calls, random: &mut Random, kinds: &mut Kinds) {
    let mut arm = Arm::accepted(random);
    let steps = 1 + random.below(STEPS_EACH);
    for _ in 0..steps {
        let rack = random.below(2);
        if random.once_in(7) {
            let family = family(random);
            start(calls, kinds, &mut arm, rack, family);
        }
        if random.once_in(6) {
            refusals::hearing(calls, random, kinds, &arm, rack);
        }
        if random.once_in(12) {
            refusals::starting(calls, random, kinds, &arm, rack);
        }
        if random.once_in(12) {
            let _ = calls.walk_ask(&arm.records[rack], REQUEST_ROOM);
        }
        if arm.walk(rack).ending.is_none() {
            let (name, heard) = any_heard(random, &arm, rack);
            hear(calls, kinds, &mut arm, rack, name, &heard);
        }
    }
}

/// A clean UID in half of the slots, of the other rack's if one fits.
fn any_heard(random: &mut Random, arm: &Arm, rack: usize) -> (&'static str, Heard) {
    let walk = arm.walk(rack);
    if random.once_in(2) {
        let (_, mut uids) = crowds::any(random, 3);
        make_some_foreign(random, &mut uids, 4);
        return replies::any(random, &walk, &uids, Manner::FalseOnceIn(2));
    }
    let others = arm.list().of(1 - rack as u8);
    let uid = match others.into_iter().find(|&uid| fits(&walk, uid)) {
        Some(uid) if random.once_in(2) => uid,
        _ => fitting(random, &walk),
    };
    ("invented UID", Heard::Bytes(reply(random, uid)))
}

fn start_both(
    calls: &mut Calls,
    random: &mut Random,
    kinds: &mut Kinds,
    arm: &mut Arm,
    families: [u16; 2],
) {
    let first = random.below(2);
    for rack in [first, 1 - first] {
        start(calls, kinds, arm, rack, families[rack]);
    }
}

fn start(calls: &mut Calls, kinds: &mut Kinds, arm: &mut Arm, rack: usize, family: u16) {
    let before = arm.clone();
    let Arm { records, marks, .. } = arm;
    let outcome = calls.shared_start(rack as u32, family, &mut records[rack], marks);
    outcome.expect("a right rack and right marks");
    kinds.started(rack, &before);
    for (row, freed) in arm.freed.iter_mut().enumerate() {
        if before.marks[row] == rack as u8 {
            *freed = Some(rack);
        }
    }
}

fn hear(
    calls: &mut Calls,
    kinds: &mut Kinds,
    arm: &mut Arm,
    rack: usize,
    name: &str,
    heard: &Heard,
) {
    let before = arm.clone();
    let Arm { records, rows, marks, .. } = arm;
    let outcome = calls.shared_hear(heard, rack as u32, &mut records[rack], rows, marks);
    outcome.expect("a running walk that fits the list");
    kinds.heard(name, heard, rack, &before, arm);
    for (row, freed) in arm.freed.iter_mut().enumerate() {
        if arm.marks[row] == rack as u8 {
            *freed = None;
        }
    }
}
