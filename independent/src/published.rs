//! Runs the vectors. The reference is held against the vector and the board
//! against the reference, so both must say what the vector says.

mod coil;
mod reader;
mod shared;
mod walk;

use crate::calls::Calls;
use crate::notation::show;
use crate::reference::card::Said;
use crate::reference::check::{check, is_sound, sealed};
use crate::reference::coder::code;
use crate::reference::decoder::{Decoded, Decoder};
use crate::reference::record::Tag;
use crate::reference::{Refusal, FRAME_MAX};
use crate::vectors::{CardStep, CheckCase, Side, TrackCase};
pub use coil::run_coils;
pub use reader::run_readers;
pub use shared::run_shared;
pub use walk::run_walks;

pub fn run_checks(calls: &mut Calls, cases: &[CheckCase]) {
    for case in cases {
        let (place, message) = (&case.place, &case.message);
        let [low, high] = case.check.to_le_bytes();
        let frame = [&message[..], &[low, high]].concat();
        let sound = case.right && (4..=FRAME_MAX).contains(&frame.len());

        let said = check(message);
        agree(calls, place, (said == case.check) == case.right, || format!("check {said:04X}"));
        let said = sealed(message);
        agree(calls, place, (said == frame) == case.right, || format!("sealed {}", show(&said)));
        let said = is_sound(&frame);
        agree(calls, place, said == sound, || format!("sound {said}"));

        calls.check(message);
        calls.seal(&[&message[..], &[0xA5; 4]].concat(), message.len());
        calls.is_sound(&frame);
    }
}

pub fn run_tracks(calls: &mut Calls, cases: &[TrackCase]) {
    let decoder = Decoder::default();
    for case in cases {
        if let (Some(coding), Side::Bytes(frame)) = (case.coding, &case.frame) {
            let said = code(frame, coding, usize::MAX);
            agree(calls, &case.place, is_track(&said, case), || format!("coded {said:X?}"));
            calls.code(frame, coding, 4200);
        }
        if let Side::Bytes(track) = &case.track {
            let said = decoder.decode(track, FRAME_MAX);
            agree(calls, &case.place, is_frame(&said, case), || format!("decoded {said:X?}"));
            calls.decode(track, FRAME_MAX);
        }
    }
}

pub fn run_cards(calls: &mut Calls, steps: &[(String, CardStep)]) {
    let mut tag = Tag { record: Vec::new(), memory: Vec::new(), locks: Vec::new() };
    for (place, step) in steps {
        let (event, answer) = match step {
            CardStep::Card(given) => {
                tag = given.clone();
                continue;
            }
            CardStep::Event(event, answer) => (event, answer),
        };
        let outcome = calls.card(event, &mut tag, 1000);
        let (right, said) = match &outcome {
            Ok(Said::Silence(why)) => (answer.is_none(), format!("silence, {why}")),
            Ok(Said::Answer(why, bytes)) => {
                (answer.as_ref() == Some(bytes), format!("{}, {why}", show(bytes)))
            }
            Err(refusal) => (false, format!("{refusal:?}")),
        };
        agree(calls, place, right, || said);
    }
}

fn is_track(said: &Result<Vec<u8>, Refusal>, case: &TrackCase) -> bool {
    match (said, &case.track) {
        (Ok(bytes), Side::Bytes(track)) => bytes == track,
        (Err(refusal), Side::Refused(number)) => *refusal as u8 == *number,
        _ => false,
    }
}

fn is_frame(said: &Result<Decoded, Refusal>, case: &TrackCase) -> bool {
    match (said, &case.frame) {
        (Ok(Decoded::Frame(coding, bytes)), Side::Bytes(frame)) => {
            Some(coding.number()) == case.coding && bytes == frame
        }
        (Ok(Decoded::SlotMark), Side::SlotMark) => true,
        (Err(refusal), Side::Refused(number)) => *refusal as u8 == *number,
        _ => false,
    }
}

fn agree(calls: &mut Calls, place: &str, right: bool, said: impl FnOnce() -> String) {
    calls.tally.count(right, || format!("{place}, where the reference says: {}", said()));
}
