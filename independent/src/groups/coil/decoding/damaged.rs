//! Good tracks and what is left of them after some changes.

use super::{Decoding, CLASH, END, LOST, START};
use crate::groups::damage;
use crate::random::Random;
use crate::reference::coil::{track_of, LONGEST, SHORTEST};

/// Up to here every two bits are tried, above only some.
const FEW_BITS: usize = 24;
const SOME_TWOS: usize = 60;

pub fn each_way(decoding: &mut Decoding, random: &mut Random, track: &[u8]) {
    damage::one_bit(track, |damaged| decoding.decode(damaged));
    damage::cut(track, |whole, part| decoding.decode_part(whole, part, LONGEST));
    one_fault(decoding, track);
    two_faults(decoding, random, track);
    other_start_or_end(decoding, track);
    shortened(decoding, track);
    extended(decoding, random, track);
    in_rooms(decoding, random, track);
}

fn bits(track: &[u8]) -> usize {
    4 * (track.len() - 2)
}

/// The track with other units for some bits.
fn with(track: &[u8], faults: &[(usize, u8)]) -> Vec<u8> {
    let mut damaged = track.to_vec();
    for (bit, pair) in faults {
        let below = 6 - 2 * (bit % 4);
        let byte = &mut damaged[1 + bit / 4];
        *byte = *byte & !(0b11 << below) | pair << below;
    }
    damaged
}

fn one_fault(decoding: &mut Decoding, track: &[u8]) {
    for bit in 0..bits(track) {
        for pair in [CLASH, LOST] {
            decoding.decode(&with(track, &[(bit, pair)]));
        }
    }
}

/// Each kind before each, at every two bits or at some.
fn two_faults(decoding: &mut Decoding, random: &mut Random, track: &[u8]) {
    let bits = bits(track);
    let twos: Vec<(usize, usize)> = match bits {
        ..=FEW_BITS => {
            (0..bits).flat_map(|later| (0..later).map(move |earlier| (earlier, later))).collect()
        }
        _ => (0..SOME_TWOS)
            .map(|_| {
                let later = 1 + random.below(bits - 1);
                (random.below(later), later)
            })
            .collect(),
    };
    for (earlier, later) in twos {
        for pairs in [[CLASH, LOST], [LOST, CLASH], [CLASH, CLASH], [LOST, LOST]] {
            decoding.decode(&with(track, &[(earlier, pairs[0]), (later, pairs[1])]));
        }
    }
}

fn other_start_or_end(decoding: &mut Decoding, track: &[u8]) {
    let mut damaged = track.to_vec();
    for place in [0, track.len() - 1] {
        for byte in 0..=255 {
            damaged[place] = byte;
            decoding.decode(&damaged);
        }
        damaged[place] = track[place];
    }
}

pub fn every_start_and_end(decoding: &mut Decoding, random: &mut Random) {
    let mut track = track_of(&random.bytes(12));
    let last = track.len() - 1;
    for start in 0..=255 {
        for end in 0..=255 {
            (track[0], track[last]) = (start, end);
            decoding.decode(&track);
        }
    }
}

/// Some bytes in a row cut out anywhere; two may be a byte of the answer.
fn shortened(decoding: &mut Decoding, track: &[u8]) {
    for fewer in 2..=6 {
        for place in 0..=track.len() - fewer {
            decoding.decode(&[&track[..place], &track[place + fewer..]].concat());
        }
    }
}

/// More bytes behind, in front and between: any, and good pairs; the same where
/// the track ends as it should.
fn extended(decoding: &mut Decoding, random: &mut Random, track: &[u8]) {
    for byte in 0..=255 {
        decoding.decode(&[track, &[byte]].concat());
        decoding.decode(&[&[byte], track].concat());
    }
    for more in 1..=9 {
        let good = track_of(&random.bytes(5))[1..=more].to_vec();
        for bytes in [random.bytes(more), vec![0x00; more], vec![END; more], good] {
            let place = 1 + random.below(track.len() - 1);
            decoding.decode(&[track, &bytes].concat());
            decoding.decode(&[track, &bytes, &[END]].concat());
            decoding.decode(&[&bytes, track].concat());
            decoding.decode(&[&[START], &bytes[..], track].concat());
            decoding.decode(&[&track[..place], &bytes, &track[place..]].concat());
        }
    }
}

/// Rooms around the one that is asked, and those that would do for the answer.
fn in_rooms(decoding: &mut Decoding, random: &mut Random, track: &[u8]) {
    let answer = track.len() / 2 - 1;
    let bit = random.below(bits(track));
    let other_start = [&[START + 1], &track[1..]].concat();
    let clash = with(track, &[(bit, CLASH)]);
    let lost = with(track, &[(bit, LOST)]);
    for room in [0, 1, answer, answer + 1, LONGEST - 1, LONGEST, LONGEST + 1, 9000] {
        decoding.calls.null_when_empty = random.once_in(2);
        for track in [track, &clash, &lost, &other_start, &track[..answer], &[]] {
            decoding.decode_into(track, room);
        }
    }
    decoding.calls.null_when_empty = false;
}

/// A track around the longest: whole, cut, with a bit that is none at its ends
/// and between, and with another start and end.
pub fn long(decoding: &mut Decoding, random: &mut Random, track: &[u8]) {
    for room in [0, LONGEST - 1, LONGEST, LONGEST + 1, 70_000] {
        decoding.decode_into(track, room);
    }
    let last = bits(track) - 1;
    let between = 1 + random.below(last - 1);
    for pair in [CLASH, LOST] {
        for bit in [0, 1, between, last - 1, last] {
            decoding.decode(&with(track, &[(bit, pair)]));
        }
        decoding.decode(&with(track, &[(0, pair), (last, CLASH)]));
        decoding.decode(&with(track, &[(between, pair), (last, LOST)]));
    }
    let (head, tail) = track.split_at(track.len() - 1);
    decoding.decode(head);
    decoding.decode(&track[1..]);
    decoding.decode(&[head, &[0x6A], tail].concat());
    decoding.decode(&[head, &[END ^ 1]].concat());
    decoding.decode(&[&[START ^ 0x80], &track[1..]].concat());
}

/// Right but for the length, also where its upper bits are lost: there stands a
/// whole track then.
pub fn far_too_long(decoding: &mut Decoding, random: &mut Random) {
    for length in [SHORTEST, 12, LONGEST] {
        for more in [65_536, 131_072] {
            let track = track_of(&random.bytes(length));
            let rest = track_of(&random.bytes(more / 2));
            let whole = [&track, &rest[2..]].concat();
            for room in [LONGEST, LONGEST + more] {
                decoding.decode_into(&whole, room);
                decoding.decode_into(&with(&whole, &[(0, CLASH)]), room);
            }
        }
    }
}
