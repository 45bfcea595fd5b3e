//! The decoder of answers: good tracks and what is left of them after changes,
//! and tracks of random pairs and of random bytes.

mod damaged;
mod kinds;

use std::ops::Range;

use crate::calls::Calls;
use crate::random::Random;
use crate::reference::coil::{track_of, LONGEST};
use kinds::Kinds;

const LENGTHS: [usize; 10] = [3, 4, 5, 6, 7, 8, 12, 16, 33, 64];
const TRACKS_EACH: usize = 30;

const OF_PAIRS: usize = 1_000_000;
const OF_BYTES_EACH: usize = 400;
const MOST_BYTES: usize = 40;

const START: u8 = 0x1D;
const END: u8 = 0xB8;
const LOST: u8 = 0b00;
const CLASH: u8 = 0b11;

/// The calls, and the kinds that they have been of.
struct Decoding<'a> {
    calls: &'a mut Calls,
    kinds: Kinds,
}

impl Decoding<'_> {
    fn decode(&mut self, track: &[u8]) {
        self.decode_into(track, LONGEST);
    }

    fn decode_into(&mut self, track: &[u8], room: usize) {
        self.decode_part(track, 0..track.len(), room);
    }

    fn decode_part(&mut self, whole: &[u8], part: Range<usize>, room: usize) {
        let outcome = self.calls.coil_decode_part(whole, part.clone(), room).outcome;
        self.kinds.decoded(&whole[part], room, &outcome);
    }
}

pub fn run(calls: &mut Calls, random: &mut Random) {
    let decoding = &mut Decoding { calls, kinds: Kinds::new() };
    for length in LENGTHS {
        for _ in 0..TRACKS_EACH {
            let track = track_of(&random.bytes(length));
            damaged::each_way(decoding, random, &track);
        }
    }
    damaged::every_start_and_end(decoding, random);
    for length in LONGEST - 3..=LONGEST + 3 {
        let track = track_of(&random.bytes(length));
        damaged::long(decoding, random, &track);
    }
    damaged::far_too_long(decoding, random);
    for _ in 0..OF_PAIRS {
        let (track, room) = (of_pairs(random), any_room(random));
        decoding.decode_into(&track, room);
    }
    of_bytes(decoding, random);
    decoding.kinds.end(&mut decoding.calls.tally);
}

/// Random pairs, most of them good, mostly between a start and an end.
fn of_pairs(random: &mut Random) -> Vec<u8> {
    let limit = random.pick(&[2, 2, 4, 12]);
    let bytes = 2 * (3 + random.below(limit));
    let spoilt = random.pick(&[6, 25, 25, 100, 100, 1000]);
    let mut pair = || match random.once_in(spoilt) {
        true => random.pick(&[CLASH, LOST]),
        false => random.pick(&[0b01, 0b10]),
    };
    let mut track = vec![START];
    track.extend((0..bytes).map(|_| (0..4).fold(0, |byte, _| byte << 2 | pair())));
    track.push(END);
    if random.once_in(8) {
        let place = random.below(track.len());
        match random.below(6) {
            0 => track[0] = random.byte(),
            1 => track[0] ^= 1 << random.below(8),
            2 => drop(track.remove(place)),
            3 => track.insert(place, random.byte()),
            4 => *track.last_mut().unwrap() ^= 1 << random.below(8),
            _ => *track.last_mut().unwrap() = random.byte(),
        }
    }
    track
}

fn any_room(random: &mut Random) -> usize {
    if !random.once_in(40) {
        return LONGEST;
    }
    let short = random.below(LONGEST);
    random.pick(&[0, short, LONGEST - 1, LONGEST + 1, 9000])
}

/// Random bytes, also from few values, also with start and end.
fn of_bytes(decoding: &mut Decoding, random: &mut Random) {
    for length in 0..=MOST_BYTES {
        for _ in 0..OF_BYTES_EACH {
            let any = random.bytes(length);
            let few: Vec<u8> = any.iter().map(|_| random.pick(&[0x55, 0xAA, START, END])).collect();
            for mut track in [any, few] {
                decoding.decode(&track);
                if let [first, .., last] = &mut track[..] {
                    (*first, *last) = (START, END);
                    decoding.decode(&track);
                }
            }
        }
    }
}
