//! The archive's walk over the archive's cards, with nothing but bytes between
//! them, against what sets and counts of the UIDs say, and against the
//! reference's walks over its cards.

pub mod built;
pub mod coil;
pub mod expected;
pub mod families;

mod air;
mod edges;
mod levels;

use crate::calls::Calls;
use crate::crowds::{other_first_byte, shuffle, with_digit, with_first_byte, CROWDS};
use crate::groups::counts::Counts;
use crate::random::Random;
use crate::reference::walk::PLACES;
use air::Air;
use built::{Built, BuiltCard, NO_FAMILY, QUIET, READY, SELECTED};

const FIELDS: usize = 20_000;

pub fn run(calls: &mut Calls, random: &mut Random) {
    let mut counts = expected::counts(Air::Bench);
    let mut levels = levels::counts();
    for _ in 0..FIELDS {
        let field = any(random);
        judge_both(calls, &mut counts, &mut levels, field);
    }
    for uids in up_to_four(&crowded(), false) {
        let field = of_ready(random, &uids);
        judge_both(calls, &mut counts, &mut levels, field);
    }
    edges::run(calls, random, &mut counts, &mut levels);
    counts.end(&mut calls.tally, "kinds of fields");
    levels.end(&mut calls.tally, "fields by walks of fourteen and of sixteen levels");
}

/// Cards that all answer.
fn of_ready(random: &mut Random, uids: &[u64]) -> Built {
    let cards = uids.iter().map(|&uid| BuiltCard::new(random, uid, READY, 0)).collect();
    Built::new(random, cards, NO_FAMILY)
}

/// By sets and counts, and by the reference's walks. Gives the field as the
/// archive left it.
fn judge_both(calls: &mut Calls, counts: &mut Counts, levels: &mut Counts, field: Built) -> Built {
    let after = judge(calls, counts, Air::Bench, field.clone());
    levels::judge(calls, levels, &field, &after);
    after
}

fn judge(calls: &mut Calls, counts: &mut Counts, air: Air, mut field: Built) -> Built {
    let before = field.clone();
    let fault = match field.play(air) {
        Ok(()) => expected::fault(air, &before, &field, counts),
        Err(fault) => Some(fault),
    };
    calls.tally.count(fault.is_none(), || {
        let (family, fault) = (before.family, fault.unwrap());
        format!("field, air {air:?}, family {family:X}: {fault}\n{}", before.show())
    });
    field
}

fn any(random: &mut Random) -> Built {
    let limit = random.pick(&[5, 5, 9, 9, 9, 9, 9, 17, 17, 25]);
    let count = match random.below(45) {
        0 => random.below(101),
        1 => random.pick(&[63, 64, 65, 66, 100]),
        _ => random.below(limit),
    };
    let (_, crowd) = random.pick(&CROWDS);
    let mut uids = crowd(random, count);
    // Without twins, or with few.
    match random.below(8) {
        0 | 1 => {
            uids.sort();
            uids.dedup();
            shuffle(random, &mut uids);
        }
        2 | 3 if count > PLACES => {
            let (one, other) = (random.below(uids.len()), random.below(uids.len()));
            uids[one] = uids[other];
        }
        _ => {}
    }

    let (family, afis) = families::any(random);
    let one_afi = random.pick(&afis[..2]);
    let mixed = random.once_in(2);
    let all_ready = random.once_in(2);
    let mut cards: Vec<BuiltCard> = uids
        .into_iter()
        .map(|uid| {
            let mode = random.pick(&[READY, READY, QUIET, SELECTED]);
            let afi = if mixed { random.pick(&afis) } else { one_afi };
            BuiltCard::new(random, uid, if all_ready { READY } else { mode }, afi)
        })
        .collect();
    if random.once_in(3) {
        make_some_foreign(random, &mut cards, family);
    }
    Built::new(random, cards, family)
}

/// Gives some cards another first byte: of those that take no part, or of all. A
/// full list is met only where few have it.
fn make_some_foreign(random: &mut Random, cards: &mut [BuiltCard], family: u16) {
    let all = random.once_in(2);
    let times = match cards.len() {
        many if many > PLACES => random.pick(&[20, many]),
        _ => random.pick(&[1, 3, 20]),
    };
    for card in cards {
        if (all || !expected::takes_part(card, family)) && random.once_in(times) {
            card.set_uid(with_first_byte(card.uid, other_first_byte(random)));
        }
    }
}

/// One UID, and others that leave it at some digits, of which 14 and 15 are the
/// first byte.
fn crowded() -> Vec<u64> {
    let one = 0xE004_0100_0000_0011;
    let mut crowded = vec![one, 0xE0FF_FFFF_FFFF_FFFF, 0xE000_0000_0000_0000, u64::MAX, 0];
    for places in
        [&[0][..], &[1], &[2], &[7], &[8], &[12], &[13], &[0, 13], &[1, 12], &[14], &[15], &[0, 15]]
    {
        crowded.push(places.iter().fold(one, |uid, &place| with_digit(uid, place, 0xA)));
    }
    crowded.push(with_digit(one, 13, 0xB));
    crowded
}

/// Up to four of a row in every way, alike ones too: in every order, or in the
/// row's alone.
fn up_to_four<One: Copy>(row: &[One], in_every_order: bool) -> Vec<Vec<One>> {
    let mut ways: Vec<Vec<usize>> = vec![Vec::new()];
    let mut begun = 0;
    for _ in 0..4 {
        let shorter = ways[begun..].to_vec();
        begun = ways.len();
        for way in shorter {
            let least = if in_every_order { 0 } else { way.last().copied().unwrap_or(0) };
            ways.extend((least..row.len()).map(|place| [&way[..], &[place]].concat()));
        }
    }
    ways.into_iter().map(|way| way.into_iter().map(|place| row[place]).collect()).collect()
}
