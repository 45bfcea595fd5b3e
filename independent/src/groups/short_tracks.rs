//! Every track of 0 to 3 bytes.

use crate::calls::Calls;
use crate::random::Random;
use crate::reference::FRAME_MAX;

/// Room short by one is tried for every so many of the longest.
const SAMPLE: u32 = 61;

pub fn run(calls: &mut Calls, _: &mut Random) {
    for length in 0..=3 {
        for number in 0..256u32.pow(length) {
            let digits = number.to_be_bytes();
            let track = &digits[4 - length as usize..];
            calls.decode(track, FRAME_MAX);
            if length < 3 || number % SAMPLE == 0 {
                calls.decode(track, FRAME_MAX - 1);
            }
        }
    }
}
