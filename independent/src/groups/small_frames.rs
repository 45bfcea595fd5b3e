//! Every frame of 0, 1 and 2 bytes through every call.

use crate::calls::Calls;
use crate::random::Random;
use crate::reference::coder::{track_of, CODINGS};
use crate::reference::FRAME_MAX;

pub fn run(calls: &mut Calls, random: &mut Random) {
    every_call(calls, random, &[]);
    for first in 0..=255 {
        every_call(calls, random, &[first]);
        for second in 0..=255 {
            every_call(calls, random, &[first, second]);
        }
    }
}

fn every_call(calls: &mut Calls, random: &mut Random, frame: &[u8]) {
    calls.check(frame);
    calls.is_sound(frame);
    let behind = 2 + random.below(4);
    calls.seal(&[frame, &random.bytes(behind)].concat(), frame.len());
    for coding in CODINGS {
        let track = track_of(frame, coding);
        calls.code(frame, coding.number(), track.len() + random.below(4));
        calls.decode(&track, FRAME_MAX + random.below(4));
    }
}
