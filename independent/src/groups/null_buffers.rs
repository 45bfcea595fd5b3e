//! NULL for buffers of no bytes, which the header allows.

use crate::calls::Calls;
use crate::random::Random;
use crate::reference::coder::{track_of, CODINGS};
use crate::reference::{coil, FRAME_MAX};

pub fn run(calls: &mut Calls, random: &mut Random) {
    calls.null_when_empty = true;
    calls.check(&[]);
    calls.is_sound(&[]);
    for length in [0, 1, 2, usize::MAX - 1, usize::MAX] {
        calls.seal(&[], length);
    }
    for coding in 0..=255 {
        for room in 0..=4 {
            calls.code(&[], coding, room);
        }
        for length in [1, FRAME_MAX, FRAME_MAX + 1] {
            calls.code(&random.bytes(length), coding, 0);
        }
    }
    for room in [0, 1, FRAME_MAX - 1, FRAME_MAX, FRAME_MAX + 1] {
        calls.decode(&[], room);
    }
    for coding in CODINGS {
        for length in 0..=FRAME_MAX + 2 {
            calls.decode(&track_of(&random.bytes(length), coding), 0);
        }
    }
    calls.decode(&[0x20], 0);
    on_the_coil(calls);
    calls.null_when_empty = false;
}

fn on_the_coil(calls: &mut Calls) {
    for room in [0, 1, 2, 8, coil::LONGEST] {
        let _ = calls.coil_code(&[], room);
    }
    for room in [0, 1, coil::LONGEST - 1, coil::LONGEST, coil::LONGEST + 1] {
        calls.coil_decode(&[], room);
    }
    for length in (1..=20).chain(coil::LONGEST - 1..=coil::LONGEST + 1) {
        let bytes = vec![0xE1; length];
        let _ = calls.coil_code(&bytes, 0);
        calls.coil_decode(&bytes, 0);
        calls.coil_decode(&coil::track_of(&bytes), 0);
    }
}
