//! Sealing with every room around the needed one, and with absurd lengths.

use crate::calls::Calls;
use crate::random::Random;

const TIMES: usize = 20;

pub fn run(calls: &mut Calls, random: &mut Random) {
    for length in 0..=70usize {
        for _ in 0..TIMES {
            for room in (length.saturating_sub(1)..=length + 4).chain([0, 300, 5000]) {
                calls.seal(&random.bytes(room), length);
            }
        }
    }
    for length in [65_533, 65_534, 65_535, 65_536] {
        for room in length..=length + 4 {
            calls.seal(&random.bytes(room), length);
        }
    }
    for length in absurd() {
        for room in [0, 1, 2, 3, 4, 5, 64, 300] {
            calls.seal(&random.bytes(room), length);
        }
    }
}

/// Lengths that pass the largest number when 2 is added, or that look small
/// when upper bits are lost.
fn absurd() -> Vec<usize> {
    let mut lengths: Vec<usize> = (0..6).map(|less| usize::MAX - less).collect();
    for power in [8, 16, 31, 32, 63] {
        lengths.extend((1usize << power) - 3..=(1usize << power) + 3);
    }
    lengths
}
