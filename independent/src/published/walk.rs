//! Runs the walk's vectors.

use super::agree;
use crate::afi;
use crate::calls::Calls;
use crate::reference::bench::Verdict;
use crate::reference::card::{Card, Said};
use crate::reference::field::{card, together};
use crate::reference::record::{self, Event, Tag};
use crate::reference::walk::record::{read, RECORD};
use crate::reference::walk::{Heard, Sent, PLACES};
use crate::reference::Refusal;
use crate::vectors::walk::{End, WalkStep};

/// The least that a card asks for.
const CARD_ROOM: usize = 32;

/// What a walk is told of the replies in a slot.
pub type Air = fn(&mut Calls, &[Vec<u8>]) -> Heard;

/// Cards, and the UIDs of what counts of them on their air.
pub struct Field {
    pub family: u16,
    pub cards: Vec<Card>,
    pub counted: Vec<u64>,
    pub air: Air,
}

/// A walk's record and its list.
struct Reader {
    record: Vec<u8>,
    list: Vec<u64>,
}

pub fn run_walks(calls: &mut Calls, steps: &[(String, WalkStep)]) {
    let mut reader = Reader::start(calls, u16::MAX);
    for (place, step) in steps {
        match step {
            WalkStep::Start(family) => reader = Reader::start(calls, *family),
            WalkStep::Slot(sent, heard) => {
                let said = reader.ask(calls);
                agree(calls, place, said.as_ref() == Ok(sent), || format!("send {said:X?}"));
                let said = reader.hear(calls, heard);
                agree(calls, place, said.is_ok(), || format!("{said:?}"));
            }
            WalkStep::End(end) => reader.ended(calls, place, end),
            WalkStep::Field(family, cards, end) => {
                let called = cards.iter().filter(|(_, own)| afi::calls(*family, *own));
                let field = Field {
                    family: *family,
                    cards: cards.iter().map(|&(uid, afi)| Card { afi, ..card(uid) }).collect(),
                    counted: called.map(|(uid, _)| *uid).collect(),
                    air: |_, replies| together(replies),
                };
                run_field(calls, place, field, end);
            }
        }
    }
}

pub fn run_field(calls: &mut Calls, place: &str, field: Field, end: &End) {
    let said = Verdict::of(&field.counted);
    let right = (said.ending, said.rounds, &said.list) == (end.ending, end.rounds, &end.list);
    agree(calls, place, right, || format!("{said:X?}"));

    let mut reader = Reader::start(calls, field.family);
    let mut cards: Vec<Tag> = field.cards.iter().map(tag).collect();
    reader.play(calls, &mut cards, field.air);
    reader.ended(calls, place, end);
}

impl Reader {
    fn ended(&self, calls: &mut Calls, place: &str, end: &End) {
        let walk = read(&self.record).expect("a right record");
        let said = (walk.ending, walk.rounds, &self.list[..walk.listed]);
        let right = said == (Some(end.ending), end.rounds, &end.list[..]);
        agree(calls, place, right, || format!("{said:X?}"));
    }
}

/// By the reference and by the board.
impl Reader {
    fn start(calls: &mut Calls, family: u16) -> Reader {
        let mut record = vec![0xA5; RECORD];
        calls.walk_start(&mut record, family);
        Reader { record, list: vec![0; PLACES] }
    }

    fn hear(&mut self, calls: &mut Calls, heard: &Heard) -> Result<(), Refusal> {
        calls.walk_hear(heard, &mut self.record, &mut self.list)
    }

    /// To the end among cards, with nothing but bytes between.
    fn play(&mut self, calls: &mut Calls, cards: &mut [Tag], air: Air) {
        while let Ok(sent @ (Sent::Request(_) | Sent::SlotMark)) = self.ask(calls) {
            let replies = replies(calls, cards, sent);
            let heard = air(calls, &replies);
            if self.hear(calls, &heard).is_err() {
                break;
            }
        }
    }

    fn ask(&self, calls: &mut Calls) -> Result<Sent, Refusal> {
        calls.walk_ask(&self.record, 14)
    }
}

/// What the cards say, by the reference and by the board.
pub fn replies(calls: &mut Calls, cards: &mut [Tag], sent: Sent) -> Vec<Vec<u8>> {
    let event = match sent {
        Sent::Request(request) => Event::Frame(request),
        _ => Event::Mark,
    };
    let reply = |card: &mut Tag| match calls.card(&event, card, CARD_ROOM) {
        Ok(Said::Answer(_, bytes)) => Some(bytes),
        _ => None,
    };
    cards.iter_mut().filter_map(reply).collect()
}

pub fn tag(card: &Card) -> Tag {
    let mut record = vec![0; record::RECORD];
    record::write(card, &mut record);
    Tag { record, memory: vec![0], locks: vec![0] }
}
