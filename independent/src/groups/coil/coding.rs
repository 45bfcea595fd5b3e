//! The coder of answers: every byte at every place of the shortest, and answers
//! of many lengths, in many rooms.

use crate::calls::Calls;
use crate::groups::counts::Counts;
use crate::groups::random_frames::rooms;
use crate::random::Random;
use crate::reference::coil::{LONGEST, SHORTEST};
use crate::reference::Refusal;

const ANSWERS_EACH: usize = 6;

/// Some would look right if their upper bits were lost.
const OVERLONG: [usize; 7] = [8455, 16_902, 16_904, 65_536, 65_539, 65_548, 73_987];

const KINDS: [&str; 10] = [
    "coded",
    "coded, just enough room",
    "coded, the shortest",
    "coded, the longest",
    "refused 7, under 3 bytes",
    "refused 7, over 8,451 bytes",
    "refused 7, before 8",
    "refused 8",
    "refused 8, one byte short",
    "refused 8, no room",
];

pub fn run(calls: &mut Calls, random: &mut Random) {
    let mut counts = Counts::default();
    for kind in KINDS {
        counts.expect(kind);
    }
    for place in 0..SHORTEST {
        for value in 0..=255 {
            let mut answer = random.bytes(SHORTEST);
            answer[place] = value;
            in_rooms(calls, random, &mut counts, &answer);
        }
    }
    for length in (0..=300).chain(LONGEST - 3..=LONGEST + 3).chain(OVERLONG) {
        for _ in 0..ANSWERS_EACH {
            let answer = random.bytes(length);
            calls.null_when_empty = random.once_in(2);
            in_rooms(calls, random, &mut counts, &answer);
        }
    }
    calls.null_when_empty = false;
    counts.end(&mut calls.tally, "kinds of answers coded for the coil");
}

fn in_rooms(calls: &mut Calls, random: &mut Random, counts: &mut Counts, answer: &[u8]) {
    let (length, needed) = (answer.len(), 2 + 2 * answer.len());
    for room in rooms(random, needed) {
        let outcome = calls.coil_code(answer, room);
        let (coded, seven) = (outcome.is_ok(), outcome == Err(Refusal::LENGTH));
        let eight = outcome == Err(Refusal::Room);
        let kinds = [
            coded,
            coded && room == needed,
            coded && length == SHORTEST,
            coded && length == LONGEST,
            seven && length < SHORTEST,
            seven && length > LONGEST,
            seven && room < needed,
            eight,
            eight && room == needed - 1,
            eight && room == 0,
        ];
        counts.rows(KINDS, kinds);
    }
}
