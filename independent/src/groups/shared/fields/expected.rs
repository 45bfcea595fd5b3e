//! What must be found after a walk over a shared list, by sets and counts of the
//! UIDs that answer and of the rows that the other rack left free.

use super::built::{BuiltArm, Seen};
use super::Field;
use crate::groups::counts::Counts;
use crate::groups::fields::built::QUIET;
use crate::groups::fields::expected::{COMPLETE, FULL, OVERRUN, TWINS};
use crate::reference::bench::Verdict;
use crate::reference::shared::MOST;
use crate::reference::tails::{all_begin_with_e0, all_differ, begins_with_e0};
use crate::reference::tails::{can_be_told, rounds};
use crate::reference::walk::{Ending, PLACES};

/// What the other rack always leaves.
const LEFT: usize = PLACES - MOST;

/// The endings in each band of numbers of cards; these must come up often.
const BANDS: [&str; 7] = [
    "up to 24: complete",
    "up to 24: twins",
    "25 to 40: complete",
    "25 to 40: twins",
    "25 to 40: full",
    "over 40: twins",
    "over 40: full",
];
const OFTEN: u64 = 100;

const KINDS: [&str; 27] = [
    "24 answer",
    "25 answer",
    "40 answer",
    "41 answer",
    "64 answer",
    "the other has 0 rows",
    "the other has 24 rows",
    "the other has 39 rows",
    "the other has 40 rows",
    "complete, 24 answer and the other has 40 rows",
    "complete, 40 answer and the other has 24 rows",
    "full, 25 answer and the other has 40 rows",
    "full, 41 answer and the other has no rows",
    "full, some alike, 25 to 40",
    "full, 40 rows and others free",
    "full, no row free and fewer than 40",
    "the other rests",
    "the other is refused",
    "the other takes rows",
    "the other starts and frees rows",
    "the other ends",
    "places grew fewer during the walk",
    "complete, more answer than had places at times",
    "complete, a UID in rows of both racks",
    "twins, another first byte answers, none alike",
    "full, another first byte answers",
    "complete, another first byte on a Quiet card",
];

pub fn counts() -> Counts {
    let mut counts = Counts::default();
    for band in BANDS {
        counts.expect_times(band, OFTEN..=u64::MAX);
    }
    for kind in KINDS {
        counts.expect(kind);
    }
    counts
}

/// What is wrong after the walk, if anything is.
pub fn fault(field: &Field, arm: &BuiltArm, seen: &Seen, counts: &mut Counts) -> Option<String> {
    let Field { rack, answering, .. } = field;
    let (many, told) = (answering.len(), can_be_told(answering));
    let (count, ending) = arm.end(*rack);
    let [complete, twins, full] = [COMPLETE, TWINS, FULL].map(|each| ending == each);
    let met = arm.rounds(*rack);
    let listed = arm.owned(*rack).into_iter().map(|(_, uid)| uid).collect();
    let [listed, all] = [listed, answering.clone()].map(sorted);
    count_kinds(counts, field, arm, seen);

    let times = |uid: &u64| all.iter().filter(|each| *each == uid).count();
    let single = listed.iter().all(|uid| times(uid) == 1) && can_be_told(&listed);
    let verdict = Verdict::within(seen.most, answering);
    let steady = seen.least == seen.most;
    let wrong = [
        (!complete && !twins && !full, "ending"),
        (complete && many > MOST, "complete above 40"),
        (complete && !told, "complete with two alike, or another first byte"),
        (complete && listed != all, "list"),
        (complete && count != many, "count"),
        (complete && met != rounds(answering), "rounds"),
        (many <= LEFT && told && !complete, "ending up to 24, all different"),
        (many <= LEFT && !told && !twins, "ending up to 24, two alike"),
        (twins && told, "twins with none alike"),
        (full && many <= LEFT, "full up to 24"),
        // Finer than the request's bands: by the places that there were.
        (many <= seen.least && told && !complete, "ending with places for all"),
        (many <= seen.least && !told && !twins, "ending with places for all, two alike"),
        (many > seen.most && told && !full, "ending with too few places"),
        (full && count < MOST && arm.free() > 0, "full with a place left"),
        (!single, "list of those that no other is alike"),
        (arm.owned(1 - rack) != seen.left, "rows of the other rack"),
        (steady && !agrees(&verdict, ending, met, &listed), "ending, rounds or list"),
    ];
    let (_, what) = wrong.iter().find(|(wrong, _)| *wrong)?;
    let (least, most) = (seen.least, seen.most);
    Some(format!(
        "wrong {what}: ending {ending}, rounds {met}, places {least} to {most}, \
         list {listed:016X?}"
    ))
}

/// With the same number of places all the time a list alone says the same.
fn agrees(verdict: &Verdict, ending: u8, met: usize, listed: &[u64]) -> bool {
    let number = match verdict.ending {
        Ending::Complete => COMPLETE,
        Ending::Twins => TWINS,
        Ending::Full => FULL,
        Ending::Overrun => OVERRUN,
    };
    (number, usize::from(verdict.rounds)) == (ending, met) && sorted(verdict.list.clone()) == listed
}

fn sorted(mut uids: Vec<u64>) -> Vec<u64> {
    uids.sort();
    uids
}

fn count_kinds(counts: &mut Counts, field: &Field, arm: &BuiltArm, seen: &Seen) {
    let (many, other) = (field.answering.len(), field.owned[1]);
    let (count, ending) = arm.end(field.rack);
    let word = match ending {
        COMPLETE => "complete",
        TWINS => "twins",
        FULL => "full",
        _ => return,
    };
    let band = match (many <= LEFT, many <= MOST) {
        (true, _) => "up to 24",
        (false, true) => "25 to 40",
        (false, false) => "over 40",
    };
    let band = format!("{band}: {word}");
    if BANDS.contains(&band.as_str()) {
        counts.row(&band);
    }
    let (complete, twins, full) = (ending == COMPLETE, ending == TWINS, ending == FULL);
    let foreign_answers = !all_begin_with_e0(&field.answering);
    let foreign_quiet =
        field.cards.iter().any(|card| card.mode == QUIET && !begins_with_e0(card.uid));
    let rests = seen.taken + seen.freed == 0;
    let kinds = [
        many == 24,
        many == 25,
        many == 40,
        many == 41,
        many == 64,
        other == 0,
        other == 24,
        other == 39,
        other == 40,
        complete && many == 24 && other == 40 && rests,
        complete && many == 40 && other == 24 && rests,
        full && many == 25 && other == 40 && rests,
        full && many == 41 && other == 0 && rests,
        full && !all_differ(&field.answering) && (LEFT + 1..=MOST).contains(&many),
        full && count == MOST && arm.free() > 0,
        full && count < MOST && arm.free() == 0,
        seen.starts + seen.taken + seen.refused + seen.ended == 0,
        seen.refused > 0,
        seen.taken > 0,
        seen.freed > 0,
        seen.ended > 0,
        seen.least < seen.most && seen.taken > 0,
        complete && many > seen.least,
        complete && seen.left.iter().any(|(_, uid)| field.answering.contains(uid)),
        twins && foreign_answers && all_differ(&field.answering),
        full && foreign_answers,
        complete && foreign_quiet,
    ];
    counts.rows(KINDS, kinds);
}
