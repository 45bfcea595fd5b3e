//! Two racks of the archive's own, and what any call of theirs may change.

mod meanwhile;

use super::Field;
use crate::board::{shared, walk, Lent};
use crate::crowds;
use crate::groups::fields::built::Aligned;
use crate::groups::shared::arm;
use crate::groups::walks::records;
use crate::random::Random;
use crate::reference::field::together;
use crate::reference::shared::{FREE, MOST};
use crate::reference::tails::begins_with_e0;
use crate::reference::walk::record::{at, RECORD};
use crate::reference::walk::{Heard, LONGEST_REQUEST, PLACES, REQUEST_ROOM, ROUNDS};
pub use meanwhile::Meanwhile;

/// What came up during a walk.
#[derive(Default)]
pub struct Seen {
    /// The least and the most that the walk could list.
    pub least: usize,
    pub most: usize,
    /// The other rack's rows as its own calls left them.
    pub left: Vec<(usize, u64)>,
    /// Its starts, the rows that it took and freed, its endings, and its calls
    /// that were refused.
    pub starts: usize,
    pub taken: usize,
    pub freed: usize,
    pub ended: usize,
    pub refused: usize,
}

#[derive(Clone)]
pub struct BuiltArm {
    records: [Aligned<RECORD>; 2],
    rows: Aligned<{ 8 * PLACES }>,
    marks: [u8; PLACES],
}

impl BuiltArm {
    /// A list of which the field's rack and the other own so many rows; some of
    /// its UIDs are those that answer.
    pub fn new(random: &mut Random, field: &Field) -> BuiltArm {
        let [own, other] = field.owned;
        let owned = if field.rack == 0 { [own, other] } else { [other, own] };
        let records = owned.map(|count| {
            let mut record = Aligned([0; RECORD]);
            record.0.copy_from_slice(&records::accepted(random));
            record.0[at::COUNT] = count as u8;
            record
        });
        let mut rows = Aligned([0; 8 * PLACES]);
        let mut uids = crowds::noise(random, PLACES);
        uids.extend(&field.answering);
        for row in rows.0.chunks_mut(8) {
            row.copy_from_slice(&random.pick(&uids).to_le_bytes());
        }
        let mut marks = [FREE; PLACES];
        marks.copy_from_slice(&arm::marks(random, owned));
        BuiltArm { records, rows, marks }
    }

    /// A row's mark and its UID.
    fn row(&self, row: usize) -> (u8, u64) {
        let bytes = &self.rows.0[8 * row..][..8];
        (self.marks[row], u64::from_le_bytes(bytes.try_into().unwrap()))
    }

    /// A rack's rows and the UIDs there.
    pub fn owned(&self, rack: usize) -> Vec<(usize, u64)> {
        let owned = (0..PLACES).filter(|&row| usize::from(self.marks[row]) == rack);
        owned.map(|row| (row, self.row(row).1)).collect()
    }

    pub fn free(&self) -> usize {
        self.marks.iter().filter(|&&mark| mark == FREE).count()
    }

    /// Count and ending of a rack's walk.
    pub fn end(&self, rack: usize) -> (usize, u8) {
        let record = &self.records[rack].0;
        (record[at::COUNT].into(), record[at::ENDING])
    }

    pub fn rounds(&self, rack: usize) -> usize {
        let bytes = &self.records[rack].0[at::ROUNDS];
        u16::from_le_bytes(bytes.try_into().unwrap()).into()
    }

    /// Frees the rack's rows and changes no other mark.
    fn start(&mut self, rack: usize, family: u16) -> Result<(), String> {
        let freed = self.marks.map(|mark| if usize::from(mark) == rack { FREE } else { mark });
        let (record, marks) = (Lent::of(&mut self.records[rack].0), Lent::of(&mut self.marks));
        let said = shared::start(record, rack as u32, family, marks);
        let anew = (self.end(rack), self.rounds(rack)) == ((0, 0), 1);
        (said == 0 && self.marks == freed && anew)
            .then_some(())
            .ok_or(format!("rack {rack}, started, said {said}, marks {:?}", self.marks))
    }

    /// Changes no row and no mark, or those of the lowest free row alone, and that
    /// only at a UID that begins with E0.
    fn hear(&mut self, rack: usize, heard: Heard) -> Result<(), String> {
        let before = self.clone();
        let record = Lent::of(&mut self.records[rack].0);
        let (rows, marks) = (Lent::of(&mut self.rows.0), Lent::of(&mut self.marks));
        let number = rack as u32;
        let (said, uid) = match heard {
            Heard::Silence => (shared::hear_silence(record, number, rows, marks), None),
            Heard::Clash => (shared::hear_clash(record, number, rows, marks), None),
            Heard::Bytes(mut bytes) => {
                let uid = bytes.get(2..10).map(|uid| u64::from_le_bytes(uid.try_into().unwrap()));
                (shared::hear_bytes(record, number, Lent::of(&mut bytes), rows, marks), uid)
            }
        };
        let changed: Vec<usize> =
            (0..PLACES).filter(|&row| self.row(row) != before.row(row)).collect();
        let taken = match changed[..] {
            [] => true,
            [row] => {
                before.marks.iter().position(|&mark| mark == FREE) == Some(row)
                    && uid.is_some_and(|uid| {
                        begins_with_e0(uid) && self.row(row) == (rack as u8, uid)
                    })
            }
            _ => false,
        };
        let counted = self.end(rack).0 == self.owned(rack).len();
        (said == 0 && taken && counted)
            .then_some(())
            .ok_or(format!("rack {rack}, hearing, said {said} and changed the rows {changed:?}"))
    }

    /// Starts the field's rack and plays its walk to the end.
    pub fn play(&mut self, random: &mut Random, field: &mut Field) -> Result<Seen, String> {
        let (rack, other) = (field.rack, 1 - field.rack);
        self.start(rack, field.family)?;
        let mut seen = Seen { least: MOST, left: self.owned(other), ..Seen::default() };
        for _ in 0..=16 * ROUNDS {
            let mut room = [0; REQUEST_ROOM];
            let told = walk::ask(Lent::of(&mut self.records[rack].0), Lent::of(&mut room));
            let request = match told {
                0 => return Ok(seen),
                1 => None,
                5.. if told <= LONGEST_REQUEST as i64 => Some(told as usize),
                _ => return Err(format!("the walk, asked, said {told}")),
            };
            let mut replies = Vec::new();
            for card in &mut field.cards {
                replies.extend(card.reply(request.map(|length| &mut room[..length]))?);
            }
            self.meanwhile(random, other, field.meanwhile, &mut seen)?;
            let places = MOST.min(PLACES - seen.left.len());
            seen.least = seen.least.min(places);
            seen.most = seen.most.max(places);
            self.hear(rack, together(&replies))?;
        }
        Err("the walk has no end".to_string())
    }
}
