//! The card's three calls.

use super::{decimal, judge, refused, Calls};
use crate::area::Area;
use crate::board;
use crate::notation::show;
use crate::reference::card::Said;
use crate::reference::record::{serve, Event, Tag};
use crate::reference::Refusal;

pub struct Areas {
    record: Area,
    memory: Area,
    locks: Area,
    answer: Area,
}

impl Areas {
    pub fn new() -> Areas {
        Areas {
            record: Area::new(64),
            memory: Area::new(300),
            locks: Area::new(300),
            // Holds the longest answer, should a call not ask for room.
            answer: Area::new(8500),
        }
    }
}

impl Calls {
    /// Serves the event on both sides. The tag goes on as the reference says.
    pub fn card(&mut self, event: &Event, tag: &mut Tag, room: usize) -> Result<Said, Refusal> {
        let Calls { card: areas, noise, input, .. } = self;
        let before = tag.clone();
        areas.record.lay(noise, &tag.record, 0..tag.record.len());
        areas.memory.lay(noise, &tag.memory, 0..tag.memory.len());
        areas.locks.lay(noise, &tag.locks, 0..tag.locks.len());
        areas.answer.lay_room(noise, room);
        let none = Vec::new();
        let frame = if let Event::Frame(frame) = event { frame } else { &none };
        input.lay(noise, frame, 0..frame.len());

        let outcome = serve(event, tag, room);
        areas.record.expect(0, &tag.record);
        areas.memory.expect(0, &tag.memory);
        areas.locks.expect(0, &tag.locks);
        let expected = match &outcome {
            Ok(Said::Silence(_)) => 0,
            Ok(Said::Answer(_, bytes)) => {
                areas.answer.expect(0, bytes);
                bytes.len() as i64
            }
            Err(refusal) => refused(*refusal),
        };

        let null = self.null_when_empty;
        let record = areas.record.lend(null);
        let (memory, locks) = (areas.memory.lend(null), areas.locks.lend(null));
        let answer = areas.answer.lend(null);
        let said = match event {
            Event::Frame(_) => board::card::frame(record, input.lend(null), memory, locks, answer),
            Event::Mark => board::card::mark(record, memory, locks, answer),
            Event::PowerOff => board::card::power_off(record, memory, locks, answer),
        };
        let call = || {
            let event = match event {
                Event::Frame(frame) => format!("frame {}", show(frame)),
                Event::Mark => "slot mark".to_string(),
                Event::PowerOff => "power off".to_string(),
            };
            let [record, memory, locks] =
                [&before.record, &before.memory, &before.locks].map(|bytes| show(bytes));
            format!(
                "card, room {room}, {event}\n  record {record}\n  memory {memory}\n  locks {locks}\
                 \n  reference {outcome:X?}"
            )
        };
        let Areas { record, memory, locks, answer } = &*areas;
        let areas = [record, memory, locks, answer, &*input];
        judge(&mut self.tally, call, decimal, [said, expected], &areas);
        outcome
    }
}
