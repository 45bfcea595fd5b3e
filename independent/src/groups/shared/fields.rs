//! The archive's walks of two racks over one list, and the archive's cards, with
//! nothing but bytes between them, against what sets and counts of the UIDs say.

mod built;
mod expected;

use crate::calls::Calls;
use crate::crowds::{any_uid, make_some_foreign, other_first_byte};
use crate::crowds::{shuffle, with_first_byte, CROWDS};
use crate::groups::fields::built::{BuiltCard, QUIET, READY, SELECTED};
use crate::groups::fields::families;
use crate::random::Random;
use crate::reference::shared::MOST;
use crate::reference::walk::PLACES;
use built::{BuiltArm, Meanwhile};

const FIELDS: usize = 5_000;
/// So many answer and the other rack has so many rows: there is just a place for
/// each, or one too few.
const EDGES: [(usize, usize); 6] = [(24, 40), (25, 40), (40, 24), (40, 25), (40, 0), (41, 0)];

/// A rack that starts anew, the cards before it, and the UIDs of those that
/// answer.
pub struct Field {
    rack: usize,
    /// The rows that the rack owns before its start, and those of the other.
    owned: [usize; 2],
    family: u16,
    cards: Vec<BuiltCard>,
    answering: Vec<u64>,
    meanwhile: Meanwhile,
}

pub fn run(calls: &mut Calls, random: &mut Random) {
    let mut counts = expected::counts();
    for _ in 0..FIELDS {
        let mut field = any(random);
        let mut arm = BuiltArm::new(random, &field);
        let fault = match arm.play(random, &mut field) {
            Ok(seen) => expected::fault(&field, &arm, &seen, &mut counts),
            Err(fault) => Some(fault),
        };
        calls.tally.count(fault.is_none(), || {
            let Field { rack, owned, family, answering, meanwhile, .. } = &field;
            let fault = fault.unwrap();
            format!(
                "rack {rack}, {owned:?} rows, the other {meanwhile:?}, family {family:X}: {fault}\
                 \n  answering {answering:016X?}"
            )
        });
    }
    counts.end(&mut calls.tally, "kinds of two racks' fields");
    calls.tally.must_have_compared(FIELDS as u64);
}

fn any(random: &mut Random) -> Field {
    let any = random.below(MOST + 1);
    let mut other = random.pick(&[0, 24, 39, MOST, MOST, any, any]);
    let (few, any) = (random.below(25), random.below(72));
    let about = [23, 24, 25, 26, 33, 39, 40, 41, 42, 63, 64, 65, few, few, few, any];
    let mut count = random.pick(&about);
    if random.once_in(8) {
        (count, other) = random.pick(&EDGES);
    }
    let own = random.below(MOST.min(PLACES - other) + 1);
    let mut answering = uids(random, count);
    if random.once_in(5) {
        let times = random.pick(&[2, 10, 40]);
        make_some_foreign(random, &mut answering, times);
    }
    let (family, afis) = families::any(random);
    let mut cards = Vec::new();
    for &uid in &answering {
        let mode = random.pick(&[READY, READY, READY, SELECTED]);
        cards.push(BuiltCard::new(random, uid, mode, afis[0]));
    }
    // Some say nothing, as one whose UID another has, but for its first byte or
    // not.
    for _ in 0..random.below(3) {
        let uid = answering.first().copied().unwrap_or(any_uid(random));
        let other = with_first_byte(uid, other_first_byte(random));
        let uid = random.pick(&[uid, other]);
        cards.push(BuiltCard::new(random, uid, QUIET, afis[0]));
    }
    shuffle(random, &mut cards);
    let rack = random.below(2);
    let meanwhile = Meanwhile::any(random);
    Field { rack, owned: [own, other], family, cards, answering, meanwhile }
}

/// So many UIDs, of which none are alike, or two, or some.
fn uids(random: &mut Random, count: usize) -> Vec<u64> {
    let (_, crowd) = random.pick(&CROWDS);
    let mut uids = if random.once_in(2) { crowd(random, count) } else { Vec::new() };
    uids.sort();
    uids.dedup();
    while uids.len() < count {
        uids.push(any_uid(random));
    }
    shuffle(random, &mut uids);
    let alike = random.pick(&[0, 0, 1, 1, 4]);
    for _ in 0..alike.min(count) {
        let (one, other) = (random.below(count), random.below(count));
        uids[one] = uids[other];
    }
    uids
}
