//! The check over messages of many lengths, bare and sealed.

pub mod entries;

use crate::calls::Calls;
use crate::random::Random;
use crate::reference::check::sealed;

const TIMES: usize = 20;

pub fn run(calls: &mut Calls, random: &mut Random) {
    for length in 0..=300 {
        calls.check(&vec![0x00; length]);
        calls.check(&vec![0xFF; length]);
        for _ in 0..TIMES {
            let message = random.bytes(length);
            calls.check(&message);
            calls.check(&sealed(&message));
        }
    }
    one_bit(calls, 66);
    for length in [65_535, 65_536, 65_537, 100_000] {
        calls.check(&random.bytes(length));
    }
}

/// Messages with a single bit set: the check is linear, so these weigh most.
fn one_bit(calls: &mut Calls, length: usize) {
    for place in 0..length {
        for bit in 0..8 {
            let mut message = vec![0x00; length];
            message[place] = 1 << bit;
            calls.check(&message);
        }
    }
}
