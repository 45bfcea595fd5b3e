//! The walk's calls over a shared list.

use super::walk::bytes_of;
use super::{decimal, judge, refused, Calls};
use crate::area::{Area, Noise};
use crate::board;
use crate::notation::show;
use crate::reference::shared::{hear, start, FREE};
use crate::reference::walk::{Heard, PLACES};
use crate::reference::Refusal;

pub struct Areas {
    record: Area,
    rows: Area,
    marks: Area,
}

impl Areas {
    /// As for a list of one rack.
    pub fn new() -> Areas {
        Areas { record: Area::new(60), rows: Area::new(64), marks: Area::new(64) }
    }
}

/// Behind fewer than 64 marks right ones stand, so that a call which takes no
/// heed of their number is found out.
fn lay_marks(area: &mut Area, noise: &mut Noise, marks: &[u8]) {
    let mut whole = marks.to_vec();
    whole.resize(marks.len().max(PLACES), FREE);
    area.lay(noise, &whole, 0..marks.len());
}

impl Calls {
    /// Starts a rack's walk on both sides. Record and marks go on as the
    /// reference says.
    pub fn shared_start(
        &mut self,
        rack: u32,
        family: u16,
        record: &mut [u8],
        marks: &mut [u8],
    ) -> Result<(), Refusal> {
        let Calls { shared: areas, noise, .. } = self;
        let before = [record.to_vec(), marks.to_vec()];
        areas.record.lay(noise, record, 0..record.len());
        lay_marks(&mut areas.marks, noise, marks);

        let outcome = start(rack, family, record, marks);
        areas.record.expect(0, record);
        areas.marks.expect(0, marks);

        let null = self.null_when_empty;
        let (record, marks) = (areas.record.lend(false), areas.marks.lend(null));
        let said = board::shared::start(record, rack, family, marks);
        let call = || {
            let [record, marks] = before.each_ref().map(|bytes| show(bytes));
            format!(
                "shared start, rack {rack}, family {family:X}\n  record {record}\n  marks {marks}"
            )
        };
        let answers = [said, number(outcome)];
        judge(&mut self.tally, call, decimal, answers, &[&areas.record, &areas.marks]);
        outcome
    }

    /// Hears a slot on both sides. Record, rows and marks go on as the reference
    /// says.
    pub fn shared_hear(
        &mut self,
        heard: &Heard,
        rack: u32,
        record: &mut [u8],
        rows: &mut [u64],
        marks: &mut [u8],
    ) -> Result<(), Refusal> {
        let Calls { shared: areas, noise, input, .. } = self;
        let before = [record.to_vec(), marks.to_vec(), bytes_of(rows)];
        areas.record.lay(noise, record, 0..record.len());
        areas.rows.lay(noise, &before[2], 0..before[2].len());
        lay_marks(&mut areas.marks, noise, marks);
        let none = Vec::new();
        let bytes = if let Heard::Bytes(bytes) = heard { bytes } else { &none };
        input.lay(noise, bytes, 0..bytes.len());

        let outcome = hear(heard, rack, record, rows, marks);
        areas.record.expect(0, record);
        areas.rows.expect(0, &bytes_of(rows));
        areas.marks.expect(0, marks);

        let null = self.null_when_empty;
        let record = areas.record.lend(false);
        let (rows, marks) = (areas.rows.lend(null), areas.marks.lend(null));
        let said = match heard {
            Heard::Silence => board::shared::hear_silence(record, rack, rows, marks),
            Heard::Clash => board::shared::hear_clash(record, rack, rows, marks),
            Heard::Bytes(_) => {
                board::shared::hear_bytes(record, rack, input.lend(null), rows, marks)
            }
        };
        let call = || {
            let heard = match heard {
                Heard::Bytes(bytes) => format!("bytes {}", show(bytes)),
                other => format!("{other:?}"),
            };
            let [record, marks, rows] = before.each_ref().map(|bytes| show(bytes));
            format!(
                "shared walk hears, rack {rack}, {heard}\n  record {record}\n  marks {marks}\
                 \n  rows {rows}"
            )
        };
        let areas = [&areas.record, &areas.rows, &areas.marks, &*input];
        judge(&mut self.tally, call, decimal, [said, number(outcome)], &areas);
        outcome
    }
}

fn number(outcome: Result<(), Refusal>) -> i64 {
    match outcome {
        Ok(()) => 0,
        Err(refusal) => refused(refusal),
    }
}
