//! Random bytes that look like tracks, and tracks with a few random changes.

use super::PLAUSIBLE;
use crate::calls::Calls;
use crate::random::Random;
use crate::reference::coder::{track_of, CODINGS};
use crate::reference::FRAME_MAX;

const TRACKS: usize = 100_000;
const LONGEST: usize = 4200;

pub fn run(calls: &mut Calls, random: &mut Random) {
    for _ in 0..TRACKS {
        let track = if random.once_in(2) { garbage(random) } else { almost(random) };
        let room = if random.once_in(8) { random.below(200) } else { FRAME_MAX };
        calls.decode(&track, room);
    }
}

fn garbage(random: &mut Random) -> Vec<u8> {
    let longest = random.pick(&[8, 80, 600, LONGEST]);
    let length = random.below(longest + 1);
    // The fewer bytes there are to pick from, the likelier is a true unit.
    let (patterns, with_zero) = (&PLAUSIBLE[1..5], &PLAUSIBLE[..5]);
    let from = random.pick(&[patterns, with_zero, &PLAUSIBLE[..1], &PLAUSIBLE[..8], &PLAUSIBLE]);
    let mut track: Vec<u8> = (0..length).map(|_| random.pick(from)).collect();
    if length > 0 && random.once_in(3) {
        track[random.below(length)] = random.byte();
    }
    if !random.once_in(4) {
        track.insert(0, random.pick(&[0x81, 0x84]));
    }
    if !random.once_in(4) {
        track.push(0x20);
    }
    track.truncate(LONGEST);
    track
}

fn almost(random: &mut Random) -> Vec<u8> {
    let length = random.below(FRAME_MAX + 3);
    let mut track = track_of(&random.bytes(length), random.pick(&CODINGS));
    for _ in 0..random.below(4) {
        let place = random.below(track.len());
        match random.below(4) {
            0 => track[place] = random.pick(&PLAUSIBLE),
            1 => track.insert(place, random.pick(&PLAUSIBLE)),
            2 if track.len() > 1 => drop(track.remove(place)),
            _ => {
                let other = random.below(track.len());
                track.swap(place, other);
            }
        }
    }
    track
}
