//! The kinds of tracks that must come up.

use super::{CLASH, END, LOST, START};
use crate::groups::counts::Counts;
use crate::reference::coil::{Decoded, LONGEST, SHORTEST};
use crate::reference::Refusal;
use crate::tally::Tally;

const ANSWERS: [&str; 3] = ["an answer", "an answer, the shortest", "an answer, the longest"];

/// Of a bit that is none.
const BITS: [&str; 5] = ["", ", first bit", ", last bit", ", a clash later", ", one lost later"];
const FAULTS: [&str; 2] = ["a clash", "lost"];

const REFUSALS: [&str; 10] = [
    "refused 8, no room",
    "refused 8, room 8,450",
    "refused 8, before 12",
    "refused 12, no bytes",
    "refused 12, start alone wrong",
    "refused 12, end alone wrong",
    "refused 12, odd length alone wrong",
    "refused 12, under 3 bytes alone wrong",
    "refused 12, over 8,451 bytes alone wrong",
    "refused 12, a bit that is none there too",
];

/// A clash, and one lost, at each bit of the shortest answer.
const PLACES: &str = "bits of 3 bytes";

pub struct Kinds(Counts);

impl Kinds {
    pub fn new() -> Kinds {
        let mut counts = Counts::default();
        for kind in ANSWERS.iter().chain(&REFUSALS) {
            counts.expect(*kind);
        }
        for fault in FAULTS {
            for bit in BITS {
                counts.expect(format!("{fault}{bit}"));
            }
            for place in 0..8 * SHORTEST {
                counts.expect_cell(PLACES, format!("{fault} at {place}"));
            }
        }
        Kinds(counts)
    }

    pub fn decoded(&mut self, track: &[u8], room: usize, outcome: &Result<Decoded, Refusal>) {
        match outcome {
            Ok(Decoded::Answer(bytes)) => {
                let kinds = [true, bytes.len() == SHORTEST, bytes.len() == LONGEST];
                self.0.rows(ANSWERS, kinds);
            }
            Ok(Decoded::Clash(place)) => self.fault(FAULTS[0], track, *place),
            Ok(Decoded::Lost(place)) => self.fault(FAULTS[1], track, *place),
            Err(refusal) => self.refused(track, room, *refusal),
        }
    }

    fn fault(&mut self, fault: &str, track: &[u8], place: usize) {
        let pairs = pairs(track);
        let later = &pairs[place + 1..];
        let kinds =
            [true, place == 0, later.is_empty(), later.contains(&CLASH), later.contains(&LOST)];
        let rows = BITS.map(|bit| format!("{fault}{bit}"));
        self.0.rows(rows.each_ref().map(String::as_str), kinds);
        if pairs.len() == 8 * SHORTEST {
            self.0.cell(PLACES, &format!("{fault} at {place}"));
        }
    }

    fn refused(&mut self, track: &[u8], room: usize, refusal: Refusal) {
        let (eight, twelve) = (refusal == Refusal::Room, refusal == Refusal::Coil);
        let (start, end) = (track.first() == Some(&START), track.last() == Some(&END));
        let even = track.len().is_multiple_of(2);
        let (short, long) = (track.len() < 2 + 2 * SHORTEST, track.len() > 3 + 2 * LONGEST);
        let length = even && !short && !long;
        let spoilt = || pairs(track).iter().any(|pair| [CLASH, LOST].contains(pair));
        let kinds = [
            eight && room == 0,
            eight && room == LONGEST - 1,
            eight && !(start && end && length),
            twelve && track.is_empty(),
            twelve && !start && end && length,
            twelve && start && !end && length,
            twelve && start && end && !even && !short && !long,
            twelve && start && end && even && short,
            twelve && start && end && even && long,
            twelve && spoilt(),
        ];
        self.0.rows(REFUSALS, kinds);
    }

    pub fn end(&self, tally: &mut Tally) {
        self.0.end(tally, "kinds of tracks from the coil");
    }
}

/// The pairs between the first byte and the last.
fn pairs(track: &[u8]) -> Vec<u8> {
    let between = track.get(1..track.len().saturating_sub(1)).unwrap_or(&[]);
    between.iter().flat_map(|byte| [byte / 64, byte / 16 % 4, byte / 4 % 4, byte % 4]).collect()
}
