//! Replies whose UIDs begin with every byte, at every level, where one more UID
//! has a place and where none has: over a list alone, and over a shared one.

use std::collections::BTreeSet;

use super::records::family;
use super::replies::{fitting, reply};
use crate::calls::Calls;
use crate::crowds::{noise, with_first_byte};
use crate::groups::counts::Counts;
use crate::groups::shared::marks;
use crate::random::Random;
use crate::reference::shared::MOST;
use crate::reference::walk::record::{read, write, RECORD};
use crate::reference::walk::{Ending, Heard, Walk, FIRST_BYTE, LAST_SLOT, LEVELS, PLACES, ROUNDS};

const SLOTS: [u8; 4] = [0, 1, 14, LAST_SLOT];
const IN_ROUNDS: [u16; 3] = [1, ROUNDS - 1, ROUNDS];
/// UIDs listed.
const LISTED: [usize; 2] = [PLACES - 1, PLACES];
/// Rows of the rack, and of the other: the rack's last is free, or none of its
/// own, or no row at all.
const ROWS: [[usize; 2]; 4] = [[MOST - 1, 24], [MOST, 0], [MOST - 1, 25], [MOST, 24]];
const RACKS: [usize; 2] = [0, 1];

const TAKEN: &str = "the UID is listed";
const FULL: &str = "full";
const MARKED: &str = "the slot is marked";
const TWINS: &str = "twins";

pub fn run(calls: &mut Calls, random: &mut Random) {
    let mut counts = expected();
    for level in 0..LEVELS {
        for (slot, rounds) in each_two(&SLOTS, &IN_ROUNDS) {
            for first in 0..=255 {
                for listed in LISTED {
                    let walk = walk(random, level, slot, rounds, listed);
                    alone(calls, random, &mut counts, &walk, first);
                }
                for (rack, owned) in each_two(&RACKS, &ROWS) {
                    let walk = walk(random, level, slot, rounds, owned[0]);
                    shared(calls, random, &mut counts, &walk, first, rack, owned);
                }
            }
        }
    }
    counts.end(&mut calls.tally, "first bytes of replies");
}

/// A running walk with clashes that wait, the own slot's not among them.
fn walk(random: &mut Random, level: usize, slot: u8, rounds: u16, listed: usize) -> Walk {
    let mut waiting = vec![BTreeSet::new(); LEVELS];
    let times = random.pick(&[2, 8, 1000]);
    for slots in &mut waiting[..=level.min(LEVELS - 2)] {
        slots.extend((0..=LAST_SLOT).filter(|&each| each != slot && random.once_in(times)));
    }
    let mask = (0..level).map(|_| random.byte() % 16).collect();
    Walk { mask, slot, waiting, rounds, listed, ..Walk::start(family(random)) }
}

fn record_of(walk: &Walk) -> Vec<u8> {
    let mut record = vec![0; RECORD];
    write(walk, &mut record);
    record
}

/// A clean reply but for its first byte.
fn heard(random: &mut Random, walk: &Walk, first: u8) -> Heard {
    let uid = with_first_byte(fitting(random, walk), first);
    Heard::Bytes(reply(random, uid))
}

fn alone(calls: &mut Calls, random: &mut Random, counts: &mut Counts, walk: &Walk, first: u8) {
    let (mut record, mut list) = (record_of(walk), noise(random, PLACES));
    let heard = heard(random, walk, first);
    calls.walk_hear(&heard, &mut record, &mut list).expect("a running walk");
    counts.row(&row("a list alone", first == FIRST_BYTE, outcome(walk, &record)));
}

fn shared(
    calls: &mut Calls,
    random: &mut Random,
    counts: &mut Counts,
    walk: &Walk,
    first: u8,
    rack: usize,
    [own, other]: [usize; 2],
) {
    let (mut record, mut rows) = (record_of(walk), noise(random, PLACES));
    let mut marks = marks(random, if rack == 0 { [own, other] } else { [other, own] });
    let heard = heard(random, walk, first);
    calls
        .shared_hear(&heard, rack as u32, &mut record, &mut rows, &mut marks)
        .expect("a running walk that fits the list");
    counts.row(&row("a shared list", first == FIRST_BYTE, outcome(walk, &record)));
}

/// What the reply has come to.
fn outcome(walk: &Walk, record: &[u8]) -> &'static str {
    let after = read(record).expect("a right record");
    let level = walk.mask.len();
    let waits = after.waiting[level].contains(&walk.slot);
    let opened = after.mask.len() == level + 1 && after.mask[level] == walk.slot;
    match after.ending {
        Some(Ending::Full) => FULL,
        Some(Ending::Twins) => TWINS,
        _ if after.listed == walk.listed + 1 => TAKEN,
        _ if waits || opened => MARKED,
        _ => "lost",
    }
}

/// Each so many times as there are such replies, and no other.
fn expected() -> Counts {
    let mut counts = Counts::default();
    let one = LEVELS * SLOTS.len() * IN_ROUNDS.len();
    let deepest = SLOTS.len() * IN_ROUNDS.len();
    let mut expect = |name: &str, lists: usize, with_place: usize| {
        let outcomes = [
            (true, TAKEN, one * with_place),
            (true, FULL, one * (lists - with_place)),
            (false, MARKED, 255 * (one - deepest) * lists),
            (false, TWINS, 255 * deepest * lists),
        ];
        for (is_e0, outcome, times) in outcomes {
            let times = times as u64;
            counts.expect_times(row(name, is_e0, outcome), times..=times);
        }
    };
    expect("a list alone", LISTED.len(), 1);
    expect("a shared list", RACKS.len() * ROWS.len(), RACKS.len());
    counts
}

fn row(name: &str, is_e0: bool, outcome: &str) -> String {
    format!("{name}, {}: {outcome}", if is_e0 { "E0" } else { "another byte" })
}

fn each_two<One: Copy, Other: Copy>(ones: &[One], others: &[Other]) -> Vec<(One, Other)> {
    ones.iter().flat_map(|&one| others.iter().map(move |&other| (one, other))).collect()
}
