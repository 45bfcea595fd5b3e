//! Fields at the walk's limits, of which ending, rounds and number of UIDs are
//! known beforehand.

use super::expected::{COMPLETE, FULL, TWINS};
use super::{judge_both, of_ready};
use crate::calls::Calls;
use crate::crowds::{shuffle, with_digit, with_first_byte, worst};
use crate::groups::counts::Counts;
use crate::random::Random;
use crate::reference::walk::record::at;
use crate::reference::walk::FIRST_BYTE;

const ONE: u64 = 0xE004_0100_0000_0011;
/// In the last slot at the first two levels, so that others are listed before it.
const LAST: u64 = 0xE004_0100_0000_00FF;

/// UIDs that answer, and how their walk must end on the bench: ending, rounds, count.
pub type Edge = (Vec<u64>, (u8, u16, u8));

pub fn run(calls: &mut Calls, random: &mut Random, counts: &mut Counts, levels: &mut Counts) {
    for (mut uids, expected) in edges(random) {
        shuffle(random, &mut uids);
        let field = of_ready(random, &uids);
        let after = judge_both(calls, counts, levels, field);
        let record = &after.record.0;
        let rounds = u16::from_le_bytes(record[at::ROUNDS].try_into().unwrap());
        let met = (record[at::ENDING], rounds, record[at::COUNT]);
        calls.tally.count(met == expected, || {
            format!("field of {uids:016X?}: ending, rounds, count {met:?}, not {expected:?}")
        });
    }
}

pub fn edges(random: &mut Random) -> Vec<Edge> {
    let mut edges = Vec::new();
    // Pairs that differ in one digit: in the fourteenth each two of its values.
    for (one, other) in (0..16).flat_map(|one| (0..one).map(move |other| (one, other))) {
        let pair = [one, other].map(|digit| with_digit(ONE, 13, digit));
        edges.push((pair.into(), (COMPLETE, 14, 2)));
    }
    for place in 0..14 {
        let pair = [ONE, with_digit(ONE, place, 0xA)];
        edges.push((pair.into(), (COMPLETE, 1 + place as u16, 2)));
    }
    // Two alike.
    edges.push((vec![ONE, ONE], (TWINS, 14, 0)));
    edges.push((vec![ONE, ONE, with_digit(ONE, 13, 0xA)], (TWINS, 14, 0)));
    // Every other first byte: alone, beside one that differs in that alone, and
    // beside one that is heard before and one that is heard after it.
    for first in (0..=255).filter(|&first| first != FIRST_BYTE) {
        let foreign = with_first_byte(ONE, first);
        edges.push((vec![foreign], (TWINS, 14, 0)));
        edges.push((vec![foreign, ONE], (TWINS, 14, 0)));
        let [before, between, after] = [0, 7, 0xF].map(|digit| with_digit(ONE, 13, digit));
        edges.push((vec![before, with_first_byte(between, first), after], (TWINS, 14, 1)));
    }
    // No more rounds than 32 pairs take; 33 take more, and are too many.
    edges.push((worst(random, 64), (COMPLETE, 401, 64)));
    edges.push((worst(random, 66), (FULL, 413, 64)));
    // With 64 listed two alike are still twins, and so is another first byte.
    let with = |random: &mut Random, more: &[u64]| [&worst(random, 64), more].concat();
    edges.push((with(random, &[LAST, LAST]), (TWINS, 413, 64)));
    for first in [0x00, 0xD0, 0xE1, 0xFF] {
        let foreign = with_first_byte(LAST, first);
        edges.push((with(random, &[foreign]), (TWINS, 413, 64)));
    }
    // A walk of sixteen levels heard the third before it came to the two alike.
    edges.push((with(random, &[LAST, LAST, with_digit(LAST, 13, 0xA)]), (TWINS, 413, 64)));
    // The 65th; and where another first byte would be opened only after it.
    edges.push((with(random, &[LAST]), (FULL, 401, 64)));
    let foreign = with_first_byte(LAST, 0xD0);
    edges.push(([worst(random, 66), vec![foreign]].concat(), (FULL, 413, 64)));
    edges
}
