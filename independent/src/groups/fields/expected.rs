//! What must be found after a field's walk, from the UIDs of what counts alone:
//! by sets and counts, and by the field taken apart as the reference's bench does
//! it.

use std::collections::BTreeMap;

use super::air::Air;
use super::built::{Built, BuiltCard, NO_FAMILY, QUIET, SELECTED};
use super::{coil, families};
use crate::afi;
use crate::groups::counts::Counts;
use crate::reference::bench::Verdict;
use crate::reference::tails::{all_begin_with_e0, all_differ, begins_with_e0};
use crate::reference::tails::{can_be_told, is_complete, rounds};
use crate::reference::walk::record::at;
use crate::reference::walk::{Ending, PLACES};

pub const COMPLETE: u8 = 1;
pub const TWINS: u8 = 2;
pub const FULL: u8 = 3;
pub const OVERRUN: u8 = 4;

const KINDS: [&str; 25] = [
    "complete, nobody answers",
    "complete, one answers",
    "complete, 2 to 63 answer",
    "complete, 64 answer",
    "complete, more than 64 cards",
    "complete in one round",
    "complete in 14 rounds or more",
    "twins, up to 64 answer",
    "twins, over 64 answer",
    "full, all differ",
    "full, 65 answer, all differ",
    "full, some alike",
    "alike, but not both answer, complete",
    "Quiet card",
    "Selected card answers",
    "card of another family",
    "card of the family asked",
    "sequence or held answer before",
    "complete, another first byte in another family",
    "complete, another first byte on a Quiet card",
    "twins, another first byte answers",
    "twins, another first byte alone answers",
    "twins, none alike, 2 to 64 answer",
    "twins, over 64 answer, none alike",
    "full, another first byte answers",
];

pub fn counts(air: Air) -> Counts {
    let mut counts = Counts::default();
    for kind in KINDS.iter().chain(air.kinds()) {
        counts.expect(*kind);
    }
    for kind in families::KINDS {
        counts.expect_times(kind, families::OFTEN..=u64::MAX);
    }
    counts
}

/// Whether its mode and its family let the card take part.
pub fn takes_part(card: &BuiltCard, family: u16) -> bool {
    card.mode != QUIET && afi::calls(family, card.afi)
}

/// What is wrong after the walk, if anything is.
pub fn fault(air: Air, before: &Built, after: &Built, counts: &mut Counts) -> Option<String> {
    let family = before.family;
    let called = || before.cards.iter().filter(|card| takes_part(card, family));
    let answering = air.counted(called());
    let (count, ending) = (after.record.0[at::COUNT], after.record.0[at::ENDING]);
    let (listed, rest) = after.list.0.split_at(8 * usize::from(count).min(PLACES));
    let listed: Vec<u64> =
        listed.chunks(8).map(|place| u64::from_le_bytes(place.try_into().unwrap())).collect();
    let met = u16::from_le_bytes(after.record.0[at::ROUNDS].try_into().unwrap()).into();
    count_kinds(counts, air, before, &answering, ending, met);
    if let Air::Coil = air {
        coil::count_kinds(counts, called(), ending);
    }

    let right = match (is_complete(&answering), answering.len() <= PLACES) {
        (true, _) => ending == COMPLETE,
        (false, true) => ending == TWINS,
        (false, false) if can_be_told(&answering) => ending == FULL,
        (false, false) => ending == TWINS || ending == FULL,
    };
    let mut times: BTreeMap<u64, usize> = BTreeMap::new();
    for &uid in &answering {
        *times.entry(uid).or_default() += 1;
    }
    let single = listed.iter().all(|uid| times.get(uid) == Some(&1)) && all_differ(&listed);
    let complete = ending == COMPLETE;
    let verdict = Verdict::of(&answering);
    let number = match verdict.ending {
        Ending::Complete => COMPLETE,
        Ending::Twins => TWINS,
        Ending::Full => FULL,
        Ending::Overrun => OVERRUN,
    };
    let same = (ending, met, &listed) == (number, verdict.rounds.into(), &verdict.list);
    let wrong = [
        (!right, "ending"),
        (complete && met != rounds(&answering), "rounds"),
        (complete && met > 1 + 13 * (answering.len() / 2), "rounds over their limit"),
        (complete && listed.len() != answering.len(), "list is short"),
        (ending == FULL && listed.len() != PLACES, "full with places left"),
        (!single, "list"),
        (!all_begin_with_e0(&listed), "first byte in the list"),
        (!same, "ending, rounds or order of the list"),
        (!before.list.0.ends_with(rest), "list past its end"),
        (after.record.0[at::FAMILY] != family.to_le_bytes(), "family"),
        (!cards_are_right(before, after), "card after the walk"),
    ];
    let (_, what) = wrong.iter().find(|(wrong, _)| *wrong)?;
    Some(format!("wrong {what}: ending {ending}, rounds {met}, list {listed:016X?}"))
}

/// Those that take part run along with the walk's slots; else all stays but a
/// sequence or a held answer from before.
fn cards_are_right(before: &Built, after: &Built) -> bool {
    let (level, slot) = (after.record.0[at::LEVEL], after.record.0[at::SLOT]);
    before.cards.iter().zip(&after.cards).all(|(old, new)| {
        let mut expected = old.clone();
        let record = &mut expected.record;
        record[22..26].fill(0);
        record[32..].fill(0);
        if takes_part(old, before.family) {
            record[22..25].copy_from_slice(&[1, slot, 4 * level]);
            record[32..].copy_from_slice(&after.record.0[at::MASK]);
        }
        *new == expected
    })
}

fn count_kinds(
    counts: &mut Counts,
    air: Air,
    field: &Built,
    answering: &[u64],
    ending: u8,
    met: usize,
) {
    let (cards, family, many) = (&field.cards, field.family, answering.len());
    let (complete, twins, full) = (ending == COMPLETE, ending == TWINS, ending == FULL);
    let differ = all_differ(answering);
    let all = air.counted(cards.iter());
    let asked = (1..NO_FAMILY).contains(&family);
    let of_family = |card: &BuiltCard| afi::calls(family, card.afi);
    let foreign = |card: &BuiltCard| !begins_with_e0(card.uid);
    let foreign_answers = !all_begin_with_e0(answering);
    let kinds = [
        complete && many == 0,
        complete && many == 1,
        complete && (2..PLACES).contains(&many),
        complete && many == PLACES,
        complete && cards.len() > PLACES,
        complete && met == 1,
        complete && met >= 14,
        twins && many <= PLACES,
        twins && many > PLACES,
        full && can_be_told(answering),
        full && can_be_told(answering) && many == PLACES + 1,
        full && !differ,
        complete && !all_differ(&all),
        cards.iter().any(|card| card.mode == QUIET),
        cards.iter().any(|card| card.mode == SELECTED && takes_part(card, family)),
        asked && cards.iter().any(|card| !of_family(card)),
        asked && cards.iter().any(of_family),
        cards.iter().any(|card| card.record[22] > 0 || card.record[25] > 0),
        complete && cards.iter().any(|card| foreign(card) && !of_family(card)),
        complete && cards.iter().any(|card| foreign(card) && card.mode == QUIET),
        twins && foreign_answers,
        twins && foreign_answers && many == 1,
        twins && differ && (2..=PLACES).contains(&many),
        twins && differ && many > PLACES,
        full && foreign_answers,
    ];
    counts.rows(KINDS, kinds);
    if let Some(kind) = families::kind(field) {
        counts.row(kind);
    }
}
