//! Fields on the coil: cards that are alike in UID and DSFID count as one, and
//! those alike in UID alone are twins.

use std::collections::BTreeSet;

use super::air::Air;
use super::built::{Built, BuiltCard, NO_FAMILY, READY};
use super::edges::edges;
use super::expected::{self, COMPLETE, FULL, TWINS};
use super::{any, judge, of_ready, up_to_four, FIELDS};
use crate::calls::Calls;
use crate::crowds::{with_digit, with_first_byte};
use crate::groups::counts::Counts;
use crate::random::Random;
use crate::reference::walk::PLACES;

/// Of two of these DSFIDs one bit differs, or seven or all do.
const DSFIDS: [u8; 3] = [0xD5, 0xD4, 0x2A];
/// Fields of none to four cards, in every order, over six UIDs with these each.
const SMALL: usize = 1 + 18 + 18 * 18 + 18 * 18 * 18 + 18 * 18 * 18 * 18;

pub const KINDS: [&str; 7] = [
    "complete, some alike in UID and DSFID",
    "complete, several and all alike in UID and DSFID",
    "complete, over 64 cards answer",
    "twins, none alike in UID and DSFID",
    "twins, some alike in UID and DSFID too",
    "twins, two pairs of twins, or three alike in UID",
    "full, some alike in UID and DSFID",
];

pub fn run(calls: &mut Calls, random: &mut Random) {
    let mut counts = expected::counts(Air::Coil);
    for _ in 0..FIELDS {
        let mut field = any(random);
        deal(random, &mut field.cards);
        judge(calls, &mut counts, Air::Coil, field);
    }
    for pairs in up_to_four(&crowded(), true) {
        let mut cards = Vec::new();
        for (uid, dsfid) in pairs {
            let mut card = BuiltCard::new(random, uid, READY, 0);
            card.set_dsfid(dsfid);
            cards.push(card);
        }
        judge(calls, &mut counts, Air::Coil, Built::new(random, cards, NO_FAMILY));
    }
    let edges = edges(random);
    for (uids, _) in &edges {
        let field = of_ready(random, uids);
        judge(calls, &mut counts, Air::Coil, field);
    }
    counts.end(&mut calls.tally, "kinds of fields on the coil, where alike answers count as one");
    calls.tally.must_have_compared((FIELDS + SMALL + edges.len()) as u64);
}

/// DSFIDs for the cards: one for all, one for each UID, two, or any.
fn deal(random: &mut Random, cards: &mut [BuiltCard]) {
    let (one, any) = (random.byte(), random.byte());
    let near = one ^ 1 << random.below(8);
    let other = random.pick(&[near, any]);
    let way = random.below(6);
    for card in cards {
        card.set_dsfid(match way {
            0 => one,
            1 => card.uid.count_ones() as u8 ^ one,
            2 => random.pick(&[one, one, one, one, one, other]),
            3 => random.pick(&[one, other]),
            _ => random.byte(),
        });
    }
}

/// Six UIDs, of which some part only at the last digit that is asked for, and one
/// only at the first byte, each with three DSFIDs.
fn crowded() -> Vec<(u64, u8)> {
    let one = 0xE004_0100_0000_0011;
    let [low, high] = [0, 12].map(|place| with_digit(one, place, 0xA));
    let [top, other_top] = [0xA, 0xB].map(|digit| with_digit(one, 13, digit));
    let uids = [one, low, high, top, other_top, with_first_byte(one, 0xD0)];
    uids.into_iter().flat_map(|uid| DSFIDS.map(|dsfid| (uid, dsfid))).collect()
}

/// Counts what the cards that take part are alike in.
pub fn count_kinds<'a>(
    counts: &mut Counts,
    called: impl Iterator<Item = &'a BuiltCard>,
    ending: u8,
) {
    let pairs: Vec<(u64, u8)> = called.map(|card| (card.uid, card.dsfid())).collect();
    let answers: BTreeSet<(u64, u8)> = pairs.iter().copied().collect();
    let uids: BTreeSet<u64> = pairs.iter().map(|(uid, _)| *uid).collect();
    let alike = answers.len() < pairs.len();
    let (complete, twins, full) = (ending == COMPLETE, ending == TWINS, ending == FULL);
    let kinds = [
        complete && alike,
        complete && alike && answers.len() == 1,
        complete && pairs.len() > PLACES,
        twins && !alike,
        twins && alike,
        twins && uids.len() + 1 < answers.len(),
        full && alike,
    ];
    counts.rows(KINDS, kinds);
}
