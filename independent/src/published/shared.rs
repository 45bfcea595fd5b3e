//! Runs the vectors of two racks and one list.

use super::agree;
use super::walk::{replies, tag};
use crate::afi;
use crate::calls::Calls;
use crate::notation::show;
use crate::reference::bench::Verdict;
use crate::reference::card::Card;
use crate::reference::field::{card, together};
use crate::reference::record::Tag;
use crate::reference::shared::{List, MOST};
use crate::reference::walk::record::{read, RECORD};
use crate::reference::walk::{Heard, Sent, REQUEST_ROOM};
use crate::reference::Refusal;
use crate::vectors::shared::{Answer, Lent, SharedStep};
use crate::vectors::walk::End;

/// The walk of each rack, and the list.
struct Arm {
    records: [Vec<u8>; 2],
    list: Lent,
}

pub fn run_shared(calls: &mut Calls, steps: &[(String, SharedStep)]) {
    let list = Lent { marks: Vec::new(), rows: Vec::new() };
    let mut arm = Arm { records: [vec![0; RECORD], vec![0; RECORD]], list };
    for (place, step) in steps {
        match step {
            SharedStep::List(list) => arm.list = list.clone(),
            SharedStep::Walk(rack, record) => arm.records[side(*rack)].clone_from(record),
            SharedStep::Start(rack, family, answer) => {
                let said = arm.start(calls, *rack, *family);
                answered(calls, place, said, *answer);
            }
            SharedStep::Hear(rack, heard, answer) => {
                let said = arm.hear(calls, *rack, heard);
                answered(calls, place, said, *answer);
            }
            SharedStep::Field(rack, family, cards, end) => {
                arm.run_field(calls, place, *rack, *family, cards, end);
            }
            SharedStep::NowList(list) => {
                let Lent { marks, rows } = &arm.list;
                agree(calls, place, arm.list == *list, || format!("{} {rows:016X?}", show(marks)));
            }
            SharedStep::NowWalk(rack, record) => {
                let stands = &arm.records[side(*rack)];
                agree(calls, place, stands == record, || show(stands));
            }
        }
    }
}

/// What is no rack has rack 0's walk.
fn side(rack: u32) -> usize {
    usize::from(rack == 1)
}

fn answered(calls: &mut Calls, place: &str, said: Result<(), Refusal>, answer: Answer) {
    let number = said.err().map(|refusal| refusal as u8);
    agree(calls, place, number == answer, || format!("{said:?}"));
}

/// By the reference and by the board.
impl Arm {
    fn start(&mut self, calls: &mut Calls, rack: u32, family: u16) -> Result<(), Refusal> {
        let Arm { records, list } = self;
        calls.shared_start(rack, family, &mut records[side(rack)], &mut list.marks)
    }

    fn hear(&mut self, calls: &mut Calls, rack: u32, heard: &Heard) -> Result<(), Refusal> {
        let Arm { records, list: Lent { marks, rows } } = self;
        calls.shared_hear(heard, rack, &mut records[side(rack)], rows, marks)
    }

    /// To the end among cards, with nothing but bytes between.
    fn run_field(
        &mut self,
        calls: &mut Calls,
        place: &str,
        rack: u32,
        family: u16,
        cards: &[(u64, u8)],
        end: &End,
    ) {
        let said = self.start(calls, rack, family);
        answered(calls, place, said, None);
        let places = MOST.min(self.list().free());
        let called = cards.iter().filter(|(_, own)| afi::calls(family, *own));
        let said = Verdict::within(places, &called.map(|(uid, _)| *uid).collect::<Vec<u64>>());
        let right = (said.ending, said.rounds, &said.list) == (end.ending, end.rounds, &end.list);
        agree(calls, place, right, || format!("{said:X?}"));

        let mut cards: Vec<Tag> =
            cards.iter().map(|&(uid, afi)| tag(&Card { afi, ..card(uid) })).collect();
        loop {
            let sent = calls.walk_ask(&self.records[side(rack)], REQUEST_ROOM);
            let Ok(sent @ (Sent::Request(_) | Sent::SlotMark)) = sent else { break };
            let heard = together(&replies(calls, &mut cards, sent));
            if self.hear(calls, rack, &heard).is_err() {
                break;
            }
        }
        let walk = read(&self.records[side(rack)]).expect("a right record");
        let said = (walk.ending, walk.rounds, self.list().of(rack as u8));
        let right = said == (Some(end.ending), end.rounds, end.list.clone());
        agree(calls, place, right, || format!("{said:X?}"));
    }

    fn list(&self) -> List {
        List::read(&self.list.rows, &self.list.marks).expect("a right list")
    }
}
