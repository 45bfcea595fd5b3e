//! The reference against itself: three ways to the same field, and walks of
//! fourteen levels and of sixteen. And families, and the check of sealed messages.

use std::collections::BTreeSet;

use super::bench::{bench, Verdict};
use super::card::{frame, Card, Said::Answer};
use super::check::{check, sealed};
use super::field::{card, play, together, Air};
use super::tails::{all_begin_with_e0, is_complete, rounds};
use super::walk::{Ending, Limits, Walk, FOURTEEN, PLACES, SIXTEEN};
use crate::crowds::{self, make_some_foreign, with_digit, CROWDS};
use crate::random::Random;

/// By the walk and the cards.
pub fn played(family: u16, cards: Vec<Card>, air: Air) -> Verdict {
    played_within(FOURTEEN, family, cards, air).0
}

/// So too with these limits, and the deepest level after a slot.
fn played_within(limits: Limits, family: u16, mut cards: Vec<Card>, air: Air) -> (Verdict, usize) {
    let mut walk = Walk::start_within(limits, family);
    let mut list = vec![0; PLACES];
    let deepest = play(&mut walk, &mut cards, &mut list, air);
    list.truncate(walk.listed);
    (Verdict { ending: walk.ending.unwrap(), rounds: walk.rounds, list }, deepest)
}

fn cards(uids: &[u64]) -> Vec<Card> {
    uids.iter().map(|&uid| card(uid)).collect()
}

/// The same on the bench, with no family.
fn on_the_bench(uids: &[u64]) -> Verdict {
    played(256, cards(uids), together)
}

fn agree(uids: &[u64]) {
    let verdict = on_the_bench(uids);
    assert_eq!(verdict, Verdict::of(uids), "{uids:016X?}");
    let (sixteen, deepest) = played_within(SIXTEEN, 256, cards(uids), together);
    assert_eq!(sixteen, Verdict::by(SIXTEEN, PLACES, uids), "{uids:016X?}");
    if all_begin_with_e0(uids) {
        nothing_is_lost(uids, &verdict, &sixteen, deepest);
    }
    assert_eq!(verdict.ending == Ending::Complete, is_complete(uids), "{uids:016X?}");
    if verdict.ending == Ending::Complete {
        assert_eq!(usize::from(verdict.rounds), rounds(uids), "{uids:016X?}");
        assert_eq!(verdict.list.len(), uids.len());
        assert_eq!(verdict.list.iter().collect::<BTreeSet<_>>(), uids.iter().collect());
    }
}

/// W6: a walk of sixteen levels that ends complete opens no level past 13, and
/// one of fourteen says the same.
fn nothing_is_lost(uids: &[u64], fourteen: &Verdict, sixteen: &Verdict, deepest: usize) {
    let complete = sixteen.ending == Ending::Complete;
    assert_eq!(fourteen.ending == Ending::Complete, complete, "{uids:016X?}");
    if complete {
        assert!(deepest <= 13, "{uids:016X?}");
        assert_eq!(fourteen, sixteen);
    }
    if uids.len() <= PLACES {
        assert_eq!(fourteen.ending, sixteen.ending, "{uids:016X?}");
    }
}

#[test]
fn walk_bench_and_counts_agree() {
    let mut random = Random::new(1);
    for (_, crowd) in CROWDS {
        for count in (0..9).chain([33, 64, 65, 100]) {
            let mut uids = crowd(&mut random, count);
            assert!(all_begin_with_e0(&uids));
            agree(&uids);
            make_some_foreign(&mut random, &mut uids, 1 + count / 2);
            agree(&uids);
        }
    }
}

#[test]
fn worst_field_takes_413_rounds() {
    let uids = crowds::worst(&mut Random::new(2), 66);
    assert_eq!(on_the_bench(&uids).rounds, 413);
}

#[test]
fn pairs_at_the_last_level() {
    let one = 0xE004010000000011;
    let pair = [one, with_digit(one, 13, 0xA)];
    let verdict = on_the_bench(&pair);
    assert_eq!(verdict, Verdict { ending: Ending::Complete, rounds: 14, list: pair.to_vec() });
    for other in [one, with_digit(one, 14, 0xA), with_digit(one, 15, 0xA)] {
        let verdict = on_the_bench(&[one, other]);
        assert_eq!(verdict, Verdict { ending: Ending::Twins, rounds: 14, list: Vec::new() });
    }
    let uids = crowds::worst(&mut Random::new(2), 64);
    let verdict = on_the_bench(&uids);
    assert_eq!((verdict.ending, verdict.rounds), (Ending::Complete, 401));
}

/// W6: "a clean reply whose UID doesn't start with E0 is a clash"
#[test]
fn another_first_byte_is_twins() {
    for first in 0..=255 {
        let uid = crowds::with_first_byte(0x11, first);
        let expected = match first {
            0xE0 => Verdict { ending: Ending::Complete, rounds: 1, list: vec![uid] },
            _ => Verdict { ending: Ending::Twins, rounds: 14, list: Vec::new() },
        };
        assert_eq!(on_the_bench(&[uid]), expected);
    }
}

/// Above 64 the two may end differently, but neither complete.
#[test]
fn twins_or_full_above_64() {
    let last = 0xE0040100000000FF;
    let mut uids = crowds::worst(&mut Random::new(2), 64);
    uids.extend([last, last, with_digit(last, 13, 0xA)]);
    agree(&uids);
    let ending = |limits| played_within(limits, 256, cards(&uids), together).0.ending;
    assert_eq!([FOURTEEN, SIXTEEN].map(ending), [Ending::Twins, Ending::Full]);
}

#[test]
fn worked_example() {
    let input = b"E004010000000011\nE004010000000021\nE004010000000005";
    let text = "verdict complete\nrounds 2\ncards 3\n\
                E004010000000005\nE004010000000011\nE004010000000021\n";
    assert_eq!(bench(&input[..]).unwrap(), text);
    let whole = [&input[..], b"\n"].concat();
    assert_eq!(bench(&whole[..]).unwrap(), text);
}

/// The AFIs of the cards that take part where this one is asked, with one slot
/// and with sixteen alike.
fn called(asked: u8) -> Vec<u8> {
    let takes_part = |own: &u8| {
        let [mut one, mut sixteen] = [card(1), card(1)].map(|card| Card { afi: *own, ..card });
        let send = |card: &mut Card, flags: u8| {
            let request = sealed(&[flags, 0x01, asked, 0x00]);
            frame(card, &request, &mut [0], &mut [0], 32).unwrap()
        };
        let answers = matches!(send(&mut one, 0x36), Answer(..));
        send(&mut sixteen, 0x16);
        assert_eq!(answers, sixteen.sequence.is_some(), "{asked:02X} {own:02X}");
        answers
    };
    (0x00..=0xFF).filter(takes_part).collect()
}

#[test]
fn families_by_each_row_of_table_1() {
    let digits = 0x1..=0xF;
    assert_eq!(called(0x00), Vec::from_iter(0x00..=0xFF));
    for x in digits.clone() {
        assert_eq!(called(16 * x), Vec::from_iter(16 * x..=16 * x + 0xF));
        assert_eq!(called(x), [x]);
        for y in digits.clone() {
            assert_eq!(called(16 * x + y), [16 * x + y]);
        }
    }
}

/// The change request W2.
#[test]
fn families_of_the_shops() {
    let burrs = called(0x30);
    assert!(burrs.contains(&0x31) && burrs.contains(&0x3F) && !burrs.contains(&0x41));
    assert_eq!(called(0x03), [0x03]);
}

#[test]
fn a_rack_asked_for_its_burrs() {
    let rack = [
        (0xE004010000000011, 0x31),
        (0xE004010000000021, 0x32),
        (0xE004010000000005, 0x33),
        (0xD004010000000015, 0x41),
    ];
    let cards = rack.iter().map(|&(uid, afi)| Card { afi, ..card(uid) }).collect();
    let list = vec![0xE004010000000005, 0xE004010000000011, 0xE004010000000021];
    let verdict = Verdict { ending: Ending::Complete, rounds: 2, list };
    assert_eq!(played(0x30, cards, together), verdict);
}

/// The residue F0B8, complemented, as vectors/check.txt has it.
#[test]
fn sealed_messages_have_the_check_0f47() {
    let mut random = Random::new(4);
    for length in 0..=300 {
        let message = random.bytes(length);
        assert_eq!(check(&sealed(&message)), 0x0F47, "{message:02X?}");
    }
}

#[test]
fn bad_lines() {
    let good = "E023456789ABCDEF\n";
    let said = |input: &str| bench(input.as_bytes()).unwrap();
    assert_eq!(said(""), "verdict complete\nrounds 1\ncards 0\n");
    assert_eq!(said("\n"), "bad line 1\n");
    assert_eq!(said(&[good, "\n", good].concat()), "bad line 2\n");
    assert_eq!(said("E023456789ABCDEf\n"), "bad line 1\n");
    assert_eq!(said("E023456789ABCDE"), "bad line 1\n");
    assert_eq!(said(&[good, "E023456789ABCDEF0"].concat()), "bad line 2\n");
    assert_eq!(said("E023456789ABCDEF\r\n"), "bad line 1\n");
    assert_ne!(said(good), "bad line 1\n");
    for first in (0..=255).filter(|&first| first != 0xE0) {
        assert_eq!(said(&format!("{first:02X}23456789ABCDEF\n")), "bad line 1\n");
    }
    assert_eq!(said("e023456789ABCDEF\n"), "bad line 1\n");
    let foreign = "D023456789ABCDEF\n";
    assert_eq!(said(&[good, foreign, "\n"].concat()), "bad line 2\n");
    assert_eq!(said(&[good, "\n", foreign].concat()), "bad line 2\n");
    assert_eq!(said(&[good, foreign.trim_end()].concat()), "bad line 2\n");
    let hundred = good.repeat(100);
    assert_eq!(said(&hundred), said(hundred.trim_end()));
    assert_eq!(said(&[&hundred, "\n"].concat()), "bad line 101\n");
    assert_eq!(said(&[&hundred, "0"].concat()), "bad line 101\n");
    assert_eq!(said(&[&hundred, foreign].concat()), "bad line 101\n");
    assert_eq!(said(&[&good.repeat(99), foreign, good].concat()), "bad line 100\n");
}

/// What a walk that ends complete says: its list and its rounds.
type Said = (Vec<u64>, usize);

/// Whether that is what demand 3 asks of a field in which these answer.
fn meets_demand_3(uids: &[u64], (list, said): &Said) -> bool {
    let mut listed = list.clone();
    let mut all = uids.to_vec();
    listed.sort_unstable();
    all.sort_unstable();
    is_complete(uids) && listed == all && *said == rounds(uids)
}

fn does_nothing(_: &[u64]) -> Said {
    (Vec::new(), 1)
}

/// Lists who is alone in a slot of the first round, and calls that all.
fn sends_one_round(uids: &[u64]) -> Said {
    let alone = |uid: &u64| uids.iter().filter(|other| *other % 16 == uid % 16).count() == 1;
    (uids.iter().copied().filter(alone).collect(), 1)
}

fn invents_its_rounds(uids: &[u64]) -> Said {
    (uids.to_vec(), 1 + uids.len())
}

#[test]
fn useless_walks_break_demand_3() {
    let field = [0xE004010000000011, 0xE004010000000021, 0xE004010000000005];
    let right = (field.to_vec(), 2);
    assert!(meets_demand_3(&field, &right));
    for useless in [does_nothing, sends_one_round, invents_its_rounds] {
        assert!(!meets_demand_3(&field, &useless(&field)));
    }
}
