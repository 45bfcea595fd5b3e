//! Runs the coil's vectors.

use std::collections::BTreeSet;

use super::agree;
use super::walk::{run_field, Field};
use crate::calls::Calls;
use crate::reference::card::Card;
use crate::reference::coil::{overlaid, track_of, Decoded, LONGEST};
use crate::reference::field::card;
use crate::reference::walk::Heard;
use crate::vectors::coil::CoilStep;

/// Room for the track of an inventory's answer.
const TRACK_ROOM: usize = 26;

pub fn run_coils(calls: &mut Calls, steps: &[(String, CoilStep)]) {
    for (place, step) in steps {
        match step {
            CoilStep::Code(answer, room, track) => {
                let said = calls.coil_code(answer, *room).map_err(|refusal| refusal as u8);
                agree(calls, place, said == *track, || format!("coded {said:X?}"));
                if let Ok(track) = track {
                    decode(calls, place, track, LONGEST, &Ok(Decoded::Answer(answer.clone())));
                }
            }
            CoilStep::Decode(track, room, reading) => decode(calls, place, track, *room, reading),
            CoilStep::Overlay(answers, track, reading) => {
                let tracks: Vec<Vec<u8>> = answers.iter().map(|answer| track_of(answer)).collect();
                let said = overlaid(&tracks);
                agree(calls, place, said == *track, || format!("overlaid {said:X?}"));
                decode(calls, place, track, LONGEST, reading);
            }
            CoilStep::Field(cards, end) => {
                let different: BTreeSet<&(u64, u8)> = cards.iter().collect();
                let field = Field {
                    family: u16::MAX,
                    cards: cards.iter().map(|&(uid, dsfid)| Card { dsfid, ..card(uid) }).collect(),
                    counted: different.iter().map(|(uid, _)| *uid).collect(),
                    air: on_the_coil,
                };
                run_field(calls, place, field, end);
            }
        }
    }
}

fn decode(
    calls: &mut Calls,
    place: &str,
    track: &[u8],
    room: usize,
    reading: &Result<Decoded, u8>,
) {
    let said = calls.coil_decode(track, room).outcome.map_err(|refusal| refusal as u8);
    agree(calls, place, said == *reading, || format!("decoded {said:X?}"));
}

/// Coded and decoded by the reference and by the board.
fn on_the_coil(calls: &mut Calls, replies: &[Vec<u8>]) -> Heard {
    if replies.is_empty() {
        return Heard::Silence;
    }
    let code = |reply: &Vec<u8>| calls.coil_code(reply, TRACK_ROOM).expect("an inventory's answer");
    let tracks: Vec<Vec<u8>> = replies.iter().map(code).collect();
    match calls.coil_decode(&overlaid(&tracks), LONGEST).outcome {
        Ok(Decoded::Answer(bytes)) => Heard::Bytes(bytes),
        _ => Heard::Clash,
    }
}
