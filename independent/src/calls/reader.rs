//! The reader's two calls.

use super::{decimal, expect_bytes, judge, refused, Calls};
use crate::area::Area;
use crate::board;
use crate::board::reader::{Reading, BLOCKS, DONE, ERROR, INFORMATION, LOCKS};
use crate::notation::show;
use crate::reference::reader::{make, read, Information, Read, Request};
use crate::reference::Refusal;

pub struct Areas {
    frame: Area,
    blocks: Area,
    locks: Area,
}

impl Areas {
    /// The guards hold the longest result, should a call not ask for room.
    pub fn new() -> Areas {
        Areas { frame: Area::new(64), blocks: Area::new(8200), locks: Area::new(300) }
    }
}

/// What the reference read, and what the board's call left behind.
pub struct Shown {
    pub outcome: Result<Read, Refusal>,
    pub reading: Reading,
    pub blocks: Vec<u8>,
    pub locks: Vec<u8>,
}

impl Calls {
    pub fn make(&mut self, request: Request, data: &[u8], room: usize) -> Result<Vec<u8>, Refusal> {
        let Calls { reader: Areas { frame, .. }, noise, input, .. } = self;
        input.lay(noise, data, 0..data.len());
        frame.lay_room(noise, room);
        let outcome = make(&request, data, room);
        let expected = expect_bytes(frame, &outcome);
        let null = self.null_when_empty;
        let said = board::reader::make(request, input.lend(null), frame.lend(null));
        let call = || format!("make, room {room}, {request:X?}\n  data {}", show(data));
        judge(&mut self.tally, call, decimal, [said, expected], &[frame, input]);
        outcome
    }

    /// The rooms are those for block bytes and for lock bytes.
    pub fn read(&mut self, request: Request, answer: &[u8], rooms: (usize, usize)) -> Shown {
        let Calls { reader: Areas { blocks, locks, .. }, noise, input, .. } = self;
        input.lay(noise, answer, 0..answer.len());
        blocks.lay_room(noise, rooms.0);
        locks.lay_room(noise, rooms.1);
        let outcome = read(&request, answer, rooms);
        match &outcome {
            Ok(Read::Blocks { blocks: bytes, locks: before }) => {
                blocks.expect(0, bytes);
                locks.expect(0, before);
            }
            Ok(Read::Locks(bytes)) => locks.expect(0, bytes),
            _ => {}
        }
        let null = self.null_when_empty;
        let (lent, reading) = (input.lend(null), expected(&outcome));
        let said = board::reader::read(request, lent, blocks.lend(null), locks.lend(null));
        let call = || format!("read, rooms {rooms:?}, {request:X?}\n  answer {}", show(answer));
        judge(&mut self.tally, call, words, [said, reading], &[blocks, locks, input]);
        let (blocks, locks) = (blocks.lent().to_vec(), locks.lent().to_vec());
        Shown { outcome, reading: said, blocks, locks }
    }
}

/// An outcome as the header gives it back.
fn expected(outcome: &Result<Read, Refusal>) -> Reading {
    let (kind, value) = match outcome {
        Err(refusal) => (0, refused(*refusal)),
        Ok(Read::Done) => (DONE, 0),
        Ok(Read::Blocks { blocks, .. }) => (BLOCKS, blocks.len() as i64),
        Ok(Read::Locks(locks)) => (LOCKS, locks.len() as i64),
        Ok(Read::Information(_)) => (INFORMATION, 0),
        Ok(Read::Error(code)) => (ERROR, i64::from(*code)),
    };
    let information = match outcome {
        Ok(Read::Information(said)) => *said,
        _ => Information::default(),
    };
    Reading { answer: kind * 65536 + value, information }
}

fn words(reading: Reading) -> String {
    let Reading { answer, information } = reading;
    format!("{answer} with {information:X?}")
}
