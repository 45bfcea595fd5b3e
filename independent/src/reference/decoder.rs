//! The decoder: looks every unit of a track up among those the coder makes.

use std::collections::HashMap;

use super::coder::{end, packed, Coding, CODINGS};
use super::{Refusal, FRAME_MAX};

#[derive(Clone, Debug, PartialEq, Eq)]
pub enum Decoded {
    Frame(Coding, Vec<u8>),
    SlotMark,
}

/// What the tracks of one coding are made of.
struct Dictionary {
    coding: Coding,
    start: Vec<u8>,
    unit_length: usize,
    values: HashMap<Vec<u8>, u8>,
}

impl Dictionary {
    fn new(coding: Coding) -> Dictionary {
        let unit = |value| packed(&coding.unit(value));
        let values: HashMap<_, _> = (0..=255).map(|value| (unit(value), value)).collect();
        // Two values with one unit could not be told apart.
        assert_eq!(values.len(), 256);
        Dictionary { coding, start: packed(&coding.start()), unit_length: unit(0).len(), values }
    }

    /// The frame whose track this is, if there is one.
    fn frame(&self, track: &[u8], end: &[u8]) -> Option<Vec<u8>> {
        let units = track.strip_prefix(&self.start[..])?.strip_suffix(end)?;
        if units.len() > FRAME_MAX * self.unit_length {
            return None;
        }
        // A piece cut short at the end is in no dictionary.
        units.chunks(self.unit_length).map(|unit| self.values.get(unit).copied()).collect()
    }
}

pub struct Decoder {
    dictionaries: [Dictionary; 2],
    end: Vec<u8>,
}

impl Default for Decoder {
    fn default() -> Decoder {
        Decoder { dictionaries: CODINGS.map(Dictionary::new), end: packed(&end()) }
    }
}

impl Decoder {
    /// The decoder with its refusals in order: 8, then 9.
    pub fn decode(&self, track: &[u8], room: usize) -> Result<Decoded, Refusal> {
        if room < FRAME_MAX {
            return Err(Refusal::Room);
        }
        if track == self.end {
            return Ok(Decoded::SlotMark);
        }
        self.dictionaries
            .iter()
            .find_map(|book| Some(Decoded::Frame(book.coding, book.frame(track, &self.end)?)))
            .ok_or(Refusal::NoTrack)
    }
}
