//! Each field once more, slot by slot, by the reference's cards and its walks: of
//! fourteen levels, as the archive's must go, and of sixteen, as it went before
//! the change request W6.

use super::built::{Built, BuiltCard};
use super::expected::takes_part;
use crate::calls::Calls;
use crate::groups::counts::Counts;
use crate::notation::show;
use crate::reference::card::Card;
use crate::reference::field::{play, together};
use crate::reference::record;
use crate::reference::tails::all_begin_with_e0;
use crate::reference::walk::record::{write, RECORD};
use crate::reference::walk::{Ending, Limits, Walk, FOURTEEN, LEVELS, PLACES, SIXTEEN};

const HELD: &str = "the archive's walk against that of fourteen";
const FOREIGN: &str = "the archive's walk against that of fourteen, another first byte answers";
const BOTH: &str = "fourteen against sixteen";
const COMPLETE: &str = "fourteen against sixteen, both complete";
const DEEPEST: &str = "fourteen against sixteen, both complete, level 13 opened";
const TWINS: &str = "fourteen against sixteen, both twins";
const FULL: &str = "fourteen against sixteen, both full";
const PAST: &str = "fourteen against sixteen, not complete, level 14 or 15 opened";
const OTHERWISE: &str = "fourteen against sixteen, over 64 answer, twins and full";

/// Most fields have no other first byte, and some have.
const OFTEN: u64 = 15_000;
const AT_TIMES: u64 = 1_000;

pub fn counts() -> Counts {
    let mut counts = Counts::default();
    for row in [HELD, BOTH] {
        counts.expect_times(row, OFTEN..=u64::MAX);
    }
    for row in [FOREIGN, COMPLETE, DEEPEST, TWINS, PAST] {
        counts.expect_times(row, AT_TIMES..=u64::MAX);
    }
    for row in [FULL, OTHERWISE] {
        counts.expect(row);
    }
    counts
}

struct Played {
    walk: Walk,
    list: Vec<u64>,
    deepest: usize,
}

/// The reference's walk of a field as the archive finds it. The shape of memory is
/// of no matter to a walk.
fn played(limits: Limits, field: &Built) -> Played {
    let of = |card: &BuiltCard| Card {
        blocks: 1,
        size: 1,
        ..record::read(&card.record).expect("a right card")
    };
    let mut cards: Vec<Card> = field.cards.iter().map(of).collect();
    let mut list: Vec<u64> = uids(&field.list.0);
    let mut walk = Walk::start_within(limits, field.family);
    let deepest = play(&mut walk, &mut cards, &mut list, together);
    Played { walk, list, deepest }
}

impl Played {
    fn is_complete(&self) -> bool {
        self.walk.ending == Some(Ending::Complete)
    }

    fn listed(&self) -> &[u64] {
        &self.list[..self.walk.listed]
    }
}

fn uids(list: &[u8]) -> Vec<u64> {
    list.chunks(8).map(|place| u64::from_le_bytes(place.try_into().unwrap())).collect()
}

/// Record and list of the archive's walk must be those of the reference's. And
/// where all that answer begin with E0, nothing may be lost by two levels fewer.
pub fn judge(calls: &mut Calls, counts: &mut Counts, before: &Built, after: &Built) {
    let fourteen = played(FOURTEEN, before);
    let mut record = vec![0; RECORD];
    write(&fourteen.walk, &mut record);
    let same = after.record.0[..] == record[..] && uids(&after.list.0) == fourteen.list;
    calls.tally.count(same, || {
        let (archives, listed) = (show(&after.record.0), fourteen.listed());
        format!(
            "field, family {:X}: the archive's record {archives}\n  the reference's {}, \
             list {listed:016X?}\n{}",
            before.family,
            show(&record),
            before.show()
        )
    });
    counts.row(HELD);

    let answering = before.cards.iter().filter(|card| takes_part(card, before.family));
    let answering: Vec<u64> = answering.map(|card| card.uid).collect();
    if !all_begin_with_e0(&answering) {
        counts.row(FOREIGN);
        return;
    }
    let sixteen = played(SIXTEEN, before);
    counts.row(BOTH);
    let endings = [&fourteen, &sixteen].map(|played| played.walk.ending);
    match endings.map(|ending| ending.expect("an ended walk")) {
        [Ending::Complete, Ending::Complete] => {
            counts.row(COMPLETE);
            if sixteen.deepest == LEVELS - 1 {
                counts.row(DEEPEST);
            }
        }
        [Ending::Twins, Ending::Twins] => counts.row(TWINS),
        [Ending::Full, Ending::Full] => counts.row(FULL),
        [Ending::Twins, Ending::Full] if answering.len() > PLACES => counts.row(OTHERWISE),
        _ => {}
    }
    // "no walk of them that ends complete opens mask length 38 or 3C"
    let past = sixteen.deepest >= LEVELS;
    if sixteen.is_complete() {
        calls.tally.count(!past, || format!("level {} opened\n{}", sixteen.deepest, before.show()));
    } else if past {
        counts.row(PAST);
    }
    let same = fourteen.is_complete() == sixteen.is_complete()
        && (answering.len() > PLACES || endings[0] == endings[1])
        && (!fourteen.is_complete()
            || (fourteen.listed(), fourteen.walk.rounds)
                == (sixteen.listed(), sixteen.walk.rounds));
    calls.tally.count(same, || {
        let rounds = [&fourteen, &sixteen].map(|played| played.walk.rounds);
        let lists = [&fourteen, &sixteen].map(|played| played.listed());
        format!(
            "fourteen levels and sixteen end {endings:?}, rounds {rounds:?}, lists \
             {lists:016X?}\n{}",
            before.show()
        )
    });
}
