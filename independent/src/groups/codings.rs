//! Every coding number, with good and overlong frames and with short rooms:
//! refusal 7 comes before 8.

use crate::calls::Calls;
use crate::random::Random;
use crate::reference::FRAME_MAX;

/// Some would look short if their upper bits were lost.
const OVERLONG: [usize; 8] = [65, 66, 128, 256, 257, 320, 65536, 65537];

/// Some would be codings if their upper bits were lost.
const WIDE: [u32; 9] = [256, 257, 258, 65536, 65537, 1 << 24, 1 << 31, (1 << 31) + 1, u32::MAX];

pub fn run(calls: &mut Calls, random: &mut Random) {
    let good = [0, 1, 2, 10, FRAME_MAX - 1, FRAME_MAX];
    for length in good.into_iter().chain(OVERLONG) {
        let frame = random.bytes(length);
        let counted = length.min(FRAME_MAX + 2);
        let exact = [2 + 4 * counted, 2 + 64 * counted];
        for coding in (0..=255).chain(WIDE) {
            for track in exact {
                for room in [track - 1, track, track + 1] {
                    calls.code(&frame, coding, room);
                }
            }
            for room in [0, 1, random.below(exact[1]), 4300] {
                calls.code(&frame, coding, room);
            }
        }
    }
}
