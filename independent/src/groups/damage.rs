//! What is left of a row of bytes after one change.

use std::ops::Range;

pub fn one_bit(bytes: &[u8], mut each: impl FnMut(&[u8])) {
    let mut damaged = bytes.to_vec();
    for place in 0..bytes.len() {
        for bit in 0..8 {
            damaged[place] = bytes[place] ^ (1 << bit);
            each(&damaged);
        }
        damaged[place] = bytes[place];
    }
}

/// Cut from the end, at the front, and in the middle. The bytes cut off at
/// either end still stand next to the part that is left.
pub fn cut(bytes: &[u8], mut each: impl FnMut(&[u8], Range<usize>)) {
    for place in 0..bytes.len() {
        each(bytes, 0..place);
        each(bytes, place + 1..bytes.len());
        let rest = [&bytes[..place], &bytes[place + 1..]].concat();
        each(&rest, 0..rest.len());
    }
}
