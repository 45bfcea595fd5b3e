//! The two calls for answers on the coil.

use std::ops::Range;

use super::{decimal, expect_bytes, judge, refused, Calls};
use crate::area::Area;
use crate::board;
use crate::notation::show;
use crate::reference::coil::{code, decode, Decoded};
use crate::reference::Refusal;

pub struct Areas {
    track: Area,
    answer: Area,
}

impl Areas {
    /// The guards hold the longest result, should a call not ask for room.
    pub fn new() -> Areas {
        Areas { track: Area::new(17_000), answer: Area::new(8500) }
    }
}

/// What the reference decoded, and what the board's call told.
pub struct Shown {
    pub outcome: Result<Decoded, Refusal>,
    pub told: Result<Decoded, i64>,
}

impl Calls {
    pub fn coil_code(&mut self, answer: &[u8], room: usize) -> Result<Vec<u8>, Refusal> {
        let Calls { coil: Areas { track, .. }, noise, input, .. } = self;
        input.lay(noise, answer, 0..answer.len());
        track.lay_room(noise, room);
        let outcome = code(answer, room);
        let expected = expect_bytes(track, &outcome);
        let null = self.null_when_empty;
        let said = board::coil::code(input.lend(null), track.lend(null));
        let call = || format!("coil, code, room {room}\n  answer {}", show(answer));
        judge(&mut self.tally, call, decimal, [said, expected], &[track, input]);
        outcome
    }

    pub fn coil_decode(&mut self, track: &[u8], room: usize) -> Shown {
        self.coil_decode_part(track, 0..track.len(), room)
    }

    /// Decodes a part of a row of bytes while the rest stands around it.
    pub fn coil_decode_part(&mut self, whole: &[u8], part: Range<usize>, room: usize) -> Shown {
        let Calls { coil: Areas { answer, .. }, noise, input, .. } = self;
        let track = &whole[part.clone()];
        input.lay(noise, whole, part);
        answer.lay_room(noise, room);
        let outcome = decode(track, room);
        let expected = match &outcome {
            Ok(decoded) => {
                if let Decoded::Answer(bytes) = decoded {
                    answer.expect(0, bytes);
                }
                board::coil::number(decoded)
            }
            Err(refusal) => refused(*refusal),
        };
        let null = self.null_when_empty;
        let said = board::coil::decode(input.lend(null), answer.lend(null));
        let call = || format!("coil, decode, room {room}\n  track {}", show(track));
        judge(&mut self.tally, call, decimal, [said, expected], &[answer, input]);
        Shown { outcome, told: board::coil::told(said, answer.lent()) }
    }
}
