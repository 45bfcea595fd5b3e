//! Cards through long histories of frames, slot marks and power offs, with
//! calls that are refused among them.

mod frames;
mod kinds;
mod refusals;
pub mod tags;

use crate::calls::Calls;
use crate::random::Random;
use crate::reference::record::{read, Event, Tag};
use kinds::Kinds;

const CARDS: usize = 5000;
const EVENTS_EACH: usize = 70;

pub fn run(calls: &mut Calls, random: &mut Random) {
    let mut kinds = Kinds::new();
    for _ in 0..CARDS {
        calls.null_when_empty = random.once_in(2);
        let mut tag = tags::any(random);
        kinds.new_card();
        for _ in 0..EVENTS_EACH {
            if random.once_in(12) {
                refusals::one(calls, random, &mut kinds, &tag);
            }
            if random.once_in(25) {
                tags::disturb(random, &mut tag.record);
            }
            let event = draw(random, &tag);
            let room = tags::room(random, &tag);
            let before = tag.clone();
            let outcome = calls.card(&event, &mut tag, room);
            kinds.served(&event, &before, &tag, &outcome);
        }
    }
    calls.null_when_empty = false;
    kinds.end(&mut calls.tally);
}

fn draw(random: &mut Random, tag: &Tag) -> Event {
    let card = read(&tag.record).expect("a right record");
    let marks = match (&card.held, &card.sequence) {
        (Some(_), _) => 60,
        (None, Some(_)) => 93,
        (None, None) => 6,
    };
    if random.below(100) < marks {
        Event::Mark
    } else if random.once_in(40) {
        Event::PowerOff
    } else {
        Event::Frame(frames::any(random, &card))
    }
}
