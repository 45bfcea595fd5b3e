//! Answers laid over one another and decoded, against what sets of answers and
//! of their bits say.

use std::collections::BTreeSet;

use crate::calls::Calls;
use crate::crowds::shuffle;
use crate::groups::counts::Counts;
use crate::notation::show;
use crate::random::Random;
use crate::reference::check::bits_of;
use crate::reference::coil::{overlaid, track_of, Decoded, LONGEST, SHORTEST};

const TWOS: usize = 200_000;
const SETS: usize = 20_000;
const UNLIKE_LENGTHS: usize = 20_000;
const LONG: usize = 60;
/// For every two values of each byte of three, and then for those above. Each
/// overlay is compared twice.
const COMPARED: usize = 2 * (SHORTEST * 65_536 + TWOS + SETS + UNLIKE_LENGTHS + LONG);

const EVERY: &str = "two values of a byte";
const TWO: &str = "two of one length";
const MORE: &str = "3 to 8 of one length";
const LENGTHS: &str = "2 to 8 of unlike lengths";
const LONGER: &str = "2 to 5 of the longest";

const AT_END: &str = "unlike lengths, alike to the shortest's end, clash at its second bit";
const AT_END_BIT: &str = "unlike lengths, alike to the shortest's end, clash at its first bit";

pub fn run(calls: &mut Calls, random: &mut Random) {
    let mut counts = expected();
    every_two_values(calls, random, &mut counts);
    for _ in 0..TWOS {
        let length = length(random);
        let answers = near(random, 2, length);
        judge(calls, &mut counts, TWO, &answers);
    }
    for _ in 0..SETS {
        let (count, length) = (3 + random.below(6), length(random));
        let answers = near(random, count, length);
        judge(calls, &mut counts, MORE, &answers);
    }
    for _ in 0..UNLIKE_LENGTHS {
        let answers = unlike_lengths(random);
        judge(calls, &mut counts, LENGTHS, &answers);
    }
    for number in 0..LONG {
        let mut answers = near(random, 2 + number % 4, LONGEST);
        match number % 3 {
            0 => answers.fill(random.bytes(LONGEST)),
            1 => answers[0].truncate(LONGEST - 1),
            _ => {}
        }
        judge(calls, &mut counts, LONGER, &answers);
    }
    counts.end(&mut calls.tally, "kinds of overlays");
    calls.tally.must_have_compared(COMPARED as u64);
}

fn expected() -> Counts {
    let mut counts = Counts::default();
    for kind in [TWO, MORE, LONGER] {
        counts.expect(format!("{kind}, all alike"));
    }
    for kind in [TWO, MORE, LENGTHS, LONGER] {
        counts.expect(format!("{kind}, unlike"));
    }
    for kind in [AT_END, AT_END_BIT] {
        counts.expect(kind);
    }
    // Of 256 × 256, the second is alike, or first differs in a given bit.
    let alike = SHORTEST as u64 * 256;
    counts.expect_times(format!("{EVERY}, all alike"), alike..=alike);
    let unlike = SHORTEST as u64 * 256 * 255;
    counts.expect_times(format!("{EVERY}, unlike"), unlike..=unlike);
    for bit in 0..8 {
        let times = SHORTEST as u64 * 256 * (128 >> bit);
        counts.expect_times(from(bit), times..=times);
    }
    counts
}

fn from(bit: usize) -> String {
    format!("{EVERY}, unlike from its bit {bit}")
}

/// What these come to, laid over one another.
fn stated(answers: &[Vec<u8>]) -> Decoded {
    let different: BTreeSet<&Vec<u8>> = answers.iter().collect();
    if let [one] = different.iter().collect::<Vec<_>>()[..] {
        return Decoded::Answer(one.to_vec());
    }
    // An end begins as a 0, and then has pulses for longer than any bit.
    let bits =
        |answer: &[u8]| answer.iter().flat_map(|&byte| bits_of(byte)).chain([false]).collect();
    let rows: Vec<Vec<bool>> = different.iter().map(|answer| bits(answer)).collect();
    let unlike = |place: &usize| {
        let here: BTreeSet<Option<&bool>> = rows.iter().map(|row| row.get(*place)).collect();
        here.len() > 1 || here.contains(&None)
    };
    Decoded::Clash((0..).find(unlike).expect("unlike at the end of the shortest, if not before"))
}

fn judge(calls: &mut Calls, counts: &mut Counts, kind: &str, answers: &[Vec<u8>]) {
    let tracks: Vec<Vec<u8>> = answers.iter().map(|answer| track_of(answer)).collect();
    let told = calls.coil_decode(&overlaid(&tracks), LONGEST).told;
    let stated = stated(answers);
    calls.tally.count(told == Ok(stated.clone()), || {
        let shown: Vec<String> =
            answers.iter().map(|answer| format!("  answer {}", show(answer))).collect();
        format!("overlay, board {told:X?}, stated {stated:X?}\n{}", shown.join("\n"))
    });

    let Decoded::Clash(place) = stated else {
        return counts.row(&format!("{kind}, all alike"));
    };
    counts.row(&format!("{kind}, unlike"));
    if kind == EVERY {
        counts.row(&from(place % 8));
    }
    let shortest = 8 * answers.iter().map(Vec::len).min().unwrap();
    if place >= shortest {
        counts.row(if place == shortest { AT_END_BIT } else { AT_END });
    }
}

fn every_two_values(calls: &mut Calls, random: &mut Random, counts: &mut Counts) {
    for place in 0..SHORTEST {
        let mut answers = vec![random.bytes(SHORTEST); 2];
        for one in 0..=255 {
            for other in 0..=255 {
                (answers[0][place], answers[1][place]) = (one, other);
                judge(calls, counts, EVERY, &answers);
            }
        }
    }
}

fn length(random: &mut Random) -> usize {
    let limit = random.pick(&[1, 2, 10, 10, 30]);
    SHORTEST + random.below(limit)
}

/// Random answers; or one again and again, with a bit or a byte changed here
/// and there, or with none.
fn near(random: &mut Random, count: usize, length: usize) -> Vec<Vec<u8>> {
    if random.once_in(8) {
        return (0..count).map(|_| random.bytes(length)).collect();
    }
    let mut answers = vec![random.bytes(length); count];
    let changes = random.pick(&[0, 1, 1, 1, 2, 5]);
    for _ in 0..changes {
        let byte = &mut answers[random.below(count)][random.below(length)];
        *byte = if random.once_in(2) { *byte ^ 1 << random.below(8) } else { random.byte() };
    }
    answers
}

/// Near ones, of which some, but not all, go on.
fn unlike_lengths(random: &mut Random) -> Vec<Vec<u8>> {
    let (count, length) = (2 + random.below(7), length(random));
    let mut answers = near(random, count, length);
    let longer = 1 + random.below(count - 1);
    let more = 1 + random.below(5);
    let rest = random.bytes(more);
    for answer in &mut answers[..longer] {
        let cut = 1 + random.below(more);
        answer.extend(&rest[..cut]);
        if random.once_in(4) {
            *answer.last_mut().unwrap() = random.byte();
        }
    }
    shuffle(random, &mut answers);
    answers
}
