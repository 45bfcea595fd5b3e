//! Memory to lend to a call: the lent bytes with guard bytes on both sides.

use std::ops::Range;

use crate::board::Lent;
use crate::random::Random;

/// Random bytes made once; each piece taken differs from the one before.
pub struct Noise {
    bytes: Vec<u8>,
    at: usize,
}

impl Noise {
    pub fn new(seed: u64) -> Noise {
        Noise { bytes: Random::new(seed).bytes(200_000), at: 0 }
    }

    fn take(&mut self, length: usize) -> &[u8] {
        self.at = (self.at + 7919) % (self.bytes.len() - length);
        &self.bytes[self.at..][..length]
    }
}

pub struct Area {
    guard: usize,
    bytes: Vec<u8>,
    expected: Vec<u8>,
    lent: Range<usize>,
}

impl Area {
    /// The guard should hold what a faulty call might write past the end.
    pub fn new(guard: usize) -> Area {
        Area { guard, bytes: Vec::new(), expected: Vec::new(), lent: 0..0 }
    }

    /// Lends a part of `whole`; the rest of it stands next to the lent part.
    pub fn lay(&mut self, noise: &mut Noise, whole: &[u8], part: Range<usize>) {
        self.bytes.clear();
        self.bytes.extend_from_slice(noise.take(self.guard));
        self.bytes.extend_from_slice(whole);
        self.bytes.extend_from_slice(noise.take(self.guard));
        self.expected.clone_from(&self.bytes);
        self.lent = self.guard + part.start..self.guard + part.end;
    }

    /// Lends room for a result, filled with noise.
    pub fn lay_room(&mut self, noise: &mut Noise, room: usize) {
        self.bytes.clear();
        self.bytes.extend_from_slice(noise.take(room + 2 * self.guard));
        self.expected.clone_from(&self.bytes);
        self.lent = self.guard..self.guard + room;
    }

    pub fn lend(&mut self, null_when_empty: bool) -> Lent<'_> {
        if null_when_empty && self.lent.is_empty() {
            return Lent::null();
        }
        Lent::of(&mut self.bytes[self.lent.clone()])
    }

    /// Says that the call should write these bytes there, and no others.
    pub fn expect(&mut self, place: usize, written: &[u8]) {
        self.expected[self.lent.clone()][place..][..written.len()].copy_from_slice(written);
    }

    /// The lent bytes as they stand.
    pub fn lent(&self) -> &[u8] {
        &self.bytes[self.lent.clone()]
    }

    pub fn is_as_expected(&self) -> bool {
        self.bytes == self.expected
    }

    /// The first wrong byte, counted from the first lent one.
    pub fn first_difference(&self) -> Option<String> {
        let place = (0..self.bytes.len()).find(|&at| self.bytes[at] != self.expected[at])?;
        Some(format!(
            "place {} of {} lent bytes holds {:02X}, expected {:02X}",
            place as i64 - self.lent.start as i64,
            self.lent.len(),
            self.bytes[place],
            self.expected[place],
        ))
    }
}
