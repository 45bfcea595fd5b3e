//! Sound frames, and frames that are not by a little.

use super::damage;
use crate::calls::Calls;
use crate::random::Random;
use crate::reference::check::sealed;
use crate::reference::FRAME_MAX;

const FRAMES_EACH: usize = 10;

pub fn run(calls: &mut Calls, random: &mut Random) {
    // Some would look short if their upper bits were lost.
    let far_too_long = [256, 260, 266, 320, 65536, 65540, 65600];
    for length in (0..=FRAME_MAX + 6).chain(far_too_long) {
        for _ in 0..FRAMES_EACH {
            let frame = rightly_checked(random, length);
            calls.is_sound(&frame);
            calls.is_sound(&random.bytes(length));
            if (2..=FRAME_MAX + 6).contains(&length) {
                wrongly_checked(calls, &frame);
            }
        }
    }
    for length in [4, 5, 6, 12, 33, FRAME_MAX, FRAME_MAX + 1] {
        let frame = rightly_checked(random, length);
        damage::one_bit(&frame, |damaged| calls.is_sound(damaged));
        cut_and_grown(calls, random, &frame);
    }
}

/// A frame of the length with its right check, if the check has place.
fn rightly_checked(random: &mut Random, length: usize) -> Vec<u8> {
    match length.checked_sub(2) {
        Some(covered) => sealed(&random.bytes(covered)),
        None => random.bytes(length),
    }
}

/// Check bytes that are swapped, complemented, or other bytes of the same sum
/// or the same difference.
fn wrongly_checked(calls: &mut Calls, frame: &[u8]) {
    let (message, sent) = frame.split_at(frame.len() - 2);
    let mut with = |check: [u8; 2]| calls.is_sound(&[message, &check].concat());
    let (low, high) = (sent[0], sent[1]);
    with([high, low]);
    with([!low, !high]);
    for by in 1..=255 {
        with([low.wrapping_add(by), high.wrapping_sub(by)]);
        with([low.wrapping_add(by), high.wrapping_add(by)]);
        with([low ^ by, high ^ by]);
        with([low ^ by, high]);
        with([low, high ^ by]);
    }
}

fn cut_and_grown(calls: &mut Calls, random: &mut Random, frame: &[u8]) {
    for place in 0..=frame.len() {
        calls.is_sound(&frame[..place]);
        calls.is_sound(&frame[place..]);
    }
    for byte in [0x00, 0xFF, random.byte()] {
        calls.is_sound(&[frame, &[byte]].concat());
        calls.is_sound(&[&[byte], frame].concat());
    }
}
