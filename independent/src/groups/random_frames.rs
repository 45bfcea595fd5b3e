//! Random frames of every length, to two over the longest, in many rooms.

use crate::calls::Calls;
use crate::random::Random;
use crate::reference::coder::{track_of, CODINGS};
use crate::reference::FRAME_MAX;

const FRAMES_EACH: usize = 300;

pub fn run(calls: &mut Calls, random: &mut Random) {
    for length in 0..=FRAME_MAX + 2 {
        for _ in 0..FRAMES_EACH {
            let frame = random.bytes(length);
            for coding in CODINGS {
                let track = track_of(&frame, coding);
                for room in rooms(random, track.len()) {
                    calls.code(&frame, coding.number(), room);
                }
                for room in rooms(random, FRAME_MAX) {
                    calls.decode(&track, room);
                }
            }
        }
    }
}

/// Exact, larger, one short, none, and short by chance.
pub fn rooms(random: &mut Random, needed: usize) -> [usize; 7] {
    let larger = needed + 1 + random.below(200);
    let short = [random.below(needed), random.below(needed)];
    [needed, needed + 1, larger, needed - 1, 0, short[0], short[1]]
}
