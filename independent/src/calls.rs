//! Every call of the header, made on both sides and compared: the answer, and
//! every byte of every lent buffer and its guards.

mod card;
pub mod coil;
pub mod reader;
mod shared;
mod walk;

use std::ops::Range;

use crate::area::{Area, Noise};
use crate::board;
use crate::notation::show;
use crate::reference::check::{check, is_sound, seal};
use crate::reference::coder::code;
use crate::reference::decoder::{Decoded, Decoder};
use crate::reference::Refusal;
use crate::tally::Tally;

pub struct Calls {
    pub tally: Tally,
    /// Lend NULL where there are no bytes to lend.
    pub null_when_empty: bool,
    decoder: Decoder,
    noise: Noise,
    input: Area,
    sealing: Area,
    coding: Area,
    decoding: Area,
    card: card::Areas,
    walk: walk::Areas,
    shared: shared::Areas,
    reader: reader::Areas,
    coil: coil::Areas,
}

impl Calls {
    pub fn new(seed: u64) -> Calls {
        Calls {
            tally: Tally::default(),
            null_when_empty: false,
            decoder: Decoder::default(),
            noise: Noise::new(seed),
            input: Area::new(32),
            sealing: Area::new(32),
            // Hold the longest track, and what a garbage track might decode to.
            coding: Area::new(4200),
            decoding: Area::new(1100),
            card: card::Areas::new(),
            walk: walk::Areas::new(),
            shared: shared::Areas::new(),
            reader: reader::Areas::new(),
            coil: coil::Areas::new(),
        }
    }

    pub fn check(&mut self, message: &[u8]) {
        self.input.lay(&mut self.noise, message, 0..message.len());
        let said = board::check(self.input.lend(self.null_when_empty));
        let call = || format!("check\n  message {}", show(message));
        let answers = [said.into(), check(message).into()];
        judge(&mut self.tally, call, hexadecimal, answers, &[&self.input]);
    }

    pub fn is_sound(&mut self, frame: &[u8]) {
        self.input.lay(&mut self.noise, frame, 0..frame.len());
        let said = board::is_sound(self.input.lend(self.null_when_empty));
        let call = || format!("is_sound\n  frame {}", show(frame));
        let answers = [said.into(), is_sound(frame).into()];
        judge(&mut self.tally, call, decimal, answers, &[&self.input]);
    }

    /// The buffer is the whole room; only its first `length` bytes are sealed.
    pub fn seal(&mut self, buffer: &[u8], length: usize) {
        self.sealing.lay(&mut self.noise, buffer, 0..buffer.len());
        let expected = match seal(buffer, length) {
            Ok(sent) => {
                self.sealing.expect(length, &sent);
                length as i64 + 2
            }
            Err(refusal) => refused(refusal),
        };
        let said = board::seal(self.sealing.lend(self.null_when_empty), length);
        let call = || format!("seal, length {length}\n  buffer {}", show(buffer));
        judge(&mut self.tally, call, decimal, [said, expected], &[&self.sealing]);
    }

    pub fn code(&mut self, frame: &[u8], coding: u32, room: usize) {
        self.input.lay(&mut self.noise, frame, 0..frame.len());
        self.coding.lay_room(&mut self.noise, room);
        let expected = expect_bytes(&mut self.coding, &code(frame, coding, room));
        let null = self.null_when_empty;
        let said = board::code(self.input.lend(null), coding, self.coding.lend(null));
        let call = || format!("code, coding {coding}, room {room}\n  frame {}", show(frame));
        let areas = [&self.input, &self.coding];
        judge(&mut self.tally, call, decimal, [said, expected], &areas);
    }

    pub fn decode(&mut self, track: &[u8], room: usize) {
        self.decode_part(track, 0..track.len(), room);
    }

    /// Decodes a part of a row of bytes while the rest stands around it, so
    /// that a decoder which reads too far is found out.
    pub fn decode_part(&mut self, whole: &[u8], part: Range<usize>, room: usize) {
        let track = &whole[part.clone()];
        self.input.lay(&mut self.noise, whole, part);
        self.decoding.lay_room(&mut self.noise, room);
        let expected = match self.decoder.decode(track, room) {
            Ok(Decoded::Frame(coding, frame)) => {
                self.decoding.expect(0, &frame);
                i64::from(coding.number()) * 65536 + frame.len() as i64
            }
            Ok(Decoded::SlotMark) => 2 * 65536,
            Err(refusal) => refused(refusal),
        };
        let null = self.null_when_empty;
        let said = board::decode(self.input.lend(null), self.decoding.lend(null));
        let call = || format!("decode, room {room}\n  track {}", show(track));
        let areas = [&self.input, &self.decoding];
        judge(&mut self.tally, call, decimal, [said, expected], &areas);
    }
}

/// Bytes that go to an area's start, or none: what the header gives back.
fn expect_bytes(area: &mut Area, outcome: &Result<Vec<u8>, Refusal>) -> i64 {
    match outcome {
        Ok(bytes) => {
            area.expect(0, bytes);
            bytes.len() as i64
        }
        Err(refusal) => refused(*refusal),
    }
}

/// A refusal as the header gives it back.
fn refused(refusal: Refusal) -> i64 {
    -(refusal as i64)
}

fn decimal(answer: i64) -> String {
    answer.to_string()
}

fn hexadecimal(answer: i64) -> String {
    format!("{answer:04X}")
}

fn judge<Answer: Copy + PartialEq>(
    tally: &mut Tally,
    call: impl FnOnce() -> String,
    words: fn(Answer) -> String,
    [board, reference]: [Answer; 2],
    areas: &[&Area],
) {
    let same = board == reference && areas.iter().all(|area| area.is_as_expected());
    tally.count(same, || {
        let mut text = call();
        text += &format!("\n  board {}, reference {}", words(board), words(reference));
        for wrong in areas.iter().filter_map(|area| area.first_difference()) {
            text += &format!("\n  after the board's call: {wrong}");
        }
        text
    });
}
