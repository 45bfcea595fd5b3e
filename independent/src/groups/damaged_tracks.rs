//! Good tracks and what is left of them after one change.

use super::{damage, PLAUSIBLE};
use crate::calls::Calls;
use crate::random::Random;
use crate::reference::coder::{track_of, Coding, CODINGS};
use crate::reference::FRAME_MAX;

const LENGTHS: [usize; 9] = [0, 1, 2, 3, 8, 9, 16, 63, 64];
const FRAMES_EACH: usize = 3;

/// Up to here every byte is tried, above only plausible ones.
const SHORT: usize = 150;

pub fn run(calls: &mut Calls, random: &mut Random) {
    for coding in CODINGS {
        for length in LENGTHS {
            for _ in 0..FRAMES_EACH {
                let track = track_of(&random.bytes(length), coding);
                in_rooms(calls, &track);
                one_bit(calls, &track);
                one_byte(calls, &track);
                inserted(calls, &track);
                extended(calls, &track);
                cut(calls, &track);
            }
        }
        overlong(calls, random, coding);
        other_start(calls, random, coding);
    }
    in_rooms(calls, &[0x20]);
    one_bit(calls, &[0x20]);
    extended(calls, &[0x20]);
}

fn in_rooms(calls: &mut Calls, track: &[u8]) {
    for room in 0..=2 * FRAME_MAX {
        calls.decode(track, room);
    }
    calls.decode(track, 4200);
}

fn one_bit(calls: &mut Calls, track: &[u8]) {
    damage::one_bit(track, |damaged| calls.decode(damaged, FRAME_MAX));
}

fn tried(track: &[u8]) -> Vec<u8> {
    if track.len() <= SHORT {
        (0..=255).collect()
    } else {
        PLAUSIBLE.to_vec()
    }
}

fn one_byte(calls: &mut Calls, track: &[u8]) {
    let mut damaged = track.to_vec();
    for place in 0..track.len() {
        for byte in tried(track) {
            damaged[place] = byte;
            calls.decode(&damaged, FRAME_MAX);
        }
        damaged[place] = track[place];
    }
}

fn inserted(calls: &mut Calls, track: &[u8]) {
    for place in 0..track.len() {
        for byte in tried(track) {
            let (before, after) = track.split_at(place);
            calls.decode(&[before, &[byte], after].concat(), FRAME_MAX);
        }
    }
}

fn extended(calls: &mut Calls, track: &[u8]) {
    for byte in 0..=255 {
        calls.decode(&[track, &[byte]].concat(), FRAME_MAX);
    }
}

fn cut(calls: &mut Calls, track: &[u8]) {
    damage::cut(track, |whole, part| calls.decode_part(whole, part, FRAME_MAX));
}

/// Tracks in all but the length. Some look short if upper bits are lost.
fn overlong(calls: &mut Calls, random: &mut Random, coding: Coding) {
    for length in [65, 66, 67, 128, 256, 257, 320] {
        for _ in 0..20 {
            let track = track_of(&random.bytes(length), coding);
            for room in [0, FRAME_MAX - 1, FRAME_MAX, length, 4200] {
                calls.decode(&track, room);
            }
        }
    }
    let longest = track_of(&random.bytes(65536), coding);
    calls.decode(&longest, FRAME_MAX);
    calls.decode(&longest, 70_000);
}

/// The units of one coding under the start of the other.
fn other_start(calls: &mut Calls, random: &mut Random, coding: Coding) {
    for length in 0..=FRAME_MAX + 2 {
        let mut track = track_of(&random.bytes(length), coding);
        for start in [0x81, 0x84] {
            track[0] = start;
            calls.decode(&track, FRAME_MAX);
        }
    }
}
