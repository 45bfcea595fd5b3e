//! Runs the reader's vectors.

use super::agree;
use crate::calls::Calls;
use crate::reference::reader::Request;
use crate::vectors::reader::ReaderStep;

pub fn run_readers(calls: &mut Calls, steps: &[(String, ReaderStep)]) {
    let mut last: Option<Request> = None;
    for (place, step) in steps {
        match step {
            ReaderStep::Make(request, data, room, frame) => {
                let said = calls.make(*request, data, *room).map_err(|refusal| refusal as u8);
                agree(calls, place, said == *frame, || format!("{said:X?}"));
                last = Some(*request);
            }
            ReaderStep::Read(answer, reading, rooms) => {
                let request = last.expect("a request before an answer");
                let rooms = rooms.unwrap_or(request.asked());
                let said = calls.read(request, answer, rooms).outcome;
                let said = said.map_err(|refusal| refusal as u8);
                agree(calls, place, said == *reading, || format!("{said:X?}"));
            }
        }
    }
}
