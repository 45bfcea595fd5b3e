//! The walk's calls. Records go as the bytes of the C struct.

use super::{decimal, judge, refused, Calls};
use crate::area::Area;
use crate::board;
use crate::notation::show;
use crate::reference::walk::record::{ask, hear, write};
use crate::reference::walk::{Heard, Sent, Walk};
use crate::reference::Refusal;

pub struct Areas {
    record: Area,
    list: Area,
    room: Area,
}

impl Areas {
    /// Guards of whole places keep the list aligned; the record stands at half of
    /// one, since it needs no more.
    pub fn new() -> Areas {
        Areas { record: Area::new(60), list: Area::new(64), room: Area::new(32) }
    }
}

impl Calls {
    /// Starts a walk in the record on both sides, whatever stands there.
    pub fn walk_start(&mut self, record: &mut [u8], family: u16) {
        let Areas { record: area, .. } = &mut self.walk;
        area.lay(&mut self.noise, record, 0..record.len());
        write(&Walk::start(family), record);
        area.expect(0, record);
        board::walk::start(area.lend(false), family);
        let call = || format!("walk start, family {family:X}");
        judge(&mut self.tally, call, decimal, [0, 0], &[area]);
    }

    /// Hears a slot on both sides. Record and list go on as the reference says.
    pub fn walk_hear(
        &mut self,
        heard: &Heard,
        record: &mut [u8],
        list: &mut [u64],
    ) -> Result<(), Refusal> {
        let Calls { walk: areas, noise, input, .. } = self;
        let before = record.to_vec();
        areas.record.lay(noise, record, 0..record.len());
        let places = bytes_of(list);
        areas.list.lay(noise, &places, 0..places.len());
        let none = Vec::new();
        let bytes = if let Heard::Bytes(bytes) = heard { bytes } else { &none };
        input.lay(noise, bytes, 0..bytes.len());

        let outcome = hear(heard, record, list);
        areas.record.expect(0, record);
        areas.list.expect(0, &bytes_of(list));
        let expected = match outcome {
            Ok(()) => 0,
            Err(refusal) => refused(refusal),
        };

        let null = self.null_when_empty;
        let (record, list) = (areas.record.lend(false), areas.list.lend(null));
        let said = match heard {
            Heard::Silence => board::walk::hear_silence(record, list),
            Heard::Clash => board::walk::hear_clash(record, list),
            Heard::Bytes(_) => board::walk::hear_bytes(record, input.lend(null), list),
        };
        let call = || {
            let heard = match heard {
                Heard::Bytes(bytes) => format!("bytes {}", show(bytes)),
                other => format!("{other:?}"),
            };
            format!(
                "walk hears, {} bytes of list, {heard}\n  record {}",
                places.len(),
                show(&before)
            )
        };
        let areas = [&areas.record, &areas.list, &*input];
        judge(&mut self.tally, call, decimal, [said, expected], &areas);
        outcome
    }

    /// Asks both sides what to send.
    pub fn walk_ask(&mut self, record: &[u8], room: usize) -> Result<Sent, Refusal> {
        let Areas { record: area, room: sent, .. } = &mut self.walk;
        area.lay(&mut self.noise, record, 0..record.len());
        sent.lay_room(&mut self.noise, room);
        let outcome = ask(record, room);
        let expected = match &outcome {
            Ok(Sent::Request(request)) => {
                sent.expect(0, request);
                request.len() as i64
            }
            Ok(Sent::SlotMark) => 1,
            Ok(Sent::Nothing) => 0,
            Err(refusal) => refused(*refusal),
        };
        let said = board::walk::ask(area.lend(false), sent.lend(self.null_when_empty));
        let call = || format!("walk asked, room {room}\n  record {}", show(record));
        judge(&mut self.tally, call, decimal, [said, expected], &[area, sent]);
        outcome
    }
}

pub fn bytes_of(list: &[u64]) -> Vec<u8> {
    list.iter().flat_map(|uid| uid.to_le_bytes()).collect()
}
