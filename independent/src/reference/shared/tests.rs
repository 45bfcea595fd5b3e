//! The shared list against the field taken apart, and what the request W5 says
//! of it in so many words.

use super::{hear, start, List, FREE, MOST};
use crate::crowds::{make_some_foreign, shuffle, CROWDS};
use crate::random::Random;
use crate::reference::bench::Verdict;
use crate::reference::check::sealed;
use crate::reference::field::{card, reply, together};
use crate::reference::tails::{can_be_told, rounds};
use crate::reference::walk::record::{ask, at, read, RECORD};
use crate::reference::walk::{Ending, Heard, Sent, PLACES, REQUEST_ROOM};

/// What a rack is lent: its record, the rows and the marks.
#[derive(Clone, Debug, PartialEq, Eq)]
struct Rack {
    record: Vec<u8>,
    rows: Vec<u64>,
    marks: Vec<u8>,
}

impl Rack {
    /// Rack 0 of a list with marks in these numbers, at any places.
    fn any(random: &mut Random, own: usize, other: usize) -> Rack {
        let free = PLACES - own - other;
        let mut marks = [vec![0; own], vec![1; other], vec![FREE; free]].concat();
        shuffle(random, &mut marks);
        let rows = (0..PLACES).map(|_| random.number()).collect();
        let mut record = vec![0; RECORD];
        start(0, 256, &mut record, &mut [FREE; PLACES]).unwrap();
        record[at::COUNT] = own as u8;
        Rack { record, rows, marks }
    }

    fn hear(&mut self, rack: u32, heard: &Heard) -> i64 {
        match hear(heard, rack, &mut self.record, &mut self.rows, &mut self.marks) {
            Ok(()) => 0,
            Err(refusal) => -(refusal as i64),
        }
    }

    fn list(&self, rack: u8) -> Vec<u64> {
        List::read(&self.rows, &self.marks).unwrap().of(rack)
    }

    /// Rows and UIDs of a mark.
    fn of(&self, mark: u8) -> Vec<(usize, u64)> {
        (0..PLACES)
            .filter(|&row| self.marks[row] == mark)
            .map(|row| (row, self.rows[row]))
            .collect()
    }
}

/// A UID of slot 0 that begins with E0.
const OWN: u64 = 0xE004_0100_0000_0010;

fn clean(uid: u64) -> Heard {
    Heard::Bytes(sealed(&[&[0x00, 0xD5], &uid.to_le_bytes()[..]].concat()))
}

/// A walk that rack 0 starts anew where the other owns so many rows.
fn played(random: &mut Random, other: usize, uids: &[u64]) -> Verdict {
    let own = random.below(MOST.min(PLACES - other) + 1);
    let mut rack = Rack::any(random, own, other);
    let before = rack.clone();
    start(0, 256, &mut rack.record, &mut rack.marks).unwrap();
    assert_eq!(rack.rows, before.rows);
    assert_eq!(rack.of(FREE).len(), PLACES - other);
    let mut cards: Vec<_> = uids.iter().map(|&uid| card(uid)).collect();
    loop {
        let sent = ask(&rack.record, REQUEST_ROOM).unwrap();
        if sent == Sent::Nothing {
            break;
        }
        let replies = cards.iter_mut().filter_map(|card| reply(card, &sent));
        let heard = together(&replies.collect::<Vec<Vec<u8>>>());
        assert_eq!(rack.hear(0, &heard), 0);
    }
    assert_eq!(rack.of(1), before.of(1));
    let walk = read(&rack.record).unwrap();
    Verdict { ending: walk.ending.unwrap(), rounds: walk.rounds, list: rack.list(0) }
}

#[test]
fn fields_of_a_rack() {
    let mut random = Random::new(5);
    for (_, crowd) in CROWDS {
        for count in [0, 1, 2, 7, 24, 25, 40, 41, 64] {
            let other = random.pick(&[0, 24, 39, 40]);
            let mut uids = crowd(&mut random, count);
            if random.once_in(3) {
                make_some_foreign(&mut random, &mut uids, 20);
            }
            let verdict = played(&mut random, other, &uids);
            assert_eq!(verdict, Verdict::within(MOST.min(PLACES - other), &uids));
            follows_the_request(&uids, &verdict);
        }
    }
}

fn follows_the_request(uids: &[u64], verdict: &Verdict) {
    let (many, told) = (uids.len(), can_be_told(uids));
    match verdict.ending {
        Ending::Complete => {
            assert!(many <= 40 && told);
            assert_eq!(usize::from(verdict.rounds), rounds(uids));
            let [mut listed, mut all] = [&verdict.list[..], uids].map(|row| row.to_vec());
            listed.sort();
            all.sort();
            assert_eq!(listed, all);
        }
        Ending::Twins => assert!(!told),
        Ending::Full => assert!(many > 24),
        Ending::Overrun => panic!("no reply was false"),
    }
}

/// "apart from the row chosen, its answer and next walk depends on the other only
/// through the number of free rows"
#[test]
fn only_the_number_of_free_rows_matters() {
    let mut random = Random::new(6);
    for own in [0, 1, 24, 39, 40] {
        for other in [0, 1, 23, 24, 40] {
            for heard in [Heard::Silence, Heard::Clash, clean(OWN), clean(OWN + 1), clean(0x10)] {
                let (own, other) = (own, other.min(PLACES - own));
                let mut racks = [(); 2].map(|()| Rack::any(&mut random, own, other));
                let before = racks.clone();
                for (rack, before) in racks.iter_mut().zip(&before) {
                    assert_eq!(rack.hear(0, &heard), 0);
                    assert_eq!(rack.of(1), before.of(1));
                }
                assert_eq!(racks[0].record, racks[1].record);
            }
        }
    }
}

#[test]
fn the_lowest_free_row() {
    let mut random = Random::new(7);
    let mut rack = Rack::any(&mut random, 0, 0);
    rack.marks[..6].copy_from_slice(&[1, FREE, 1, 0, FREE, 1]);
    rack.record[at::COUNT] = 1;
    let mut expected = rack.clone();
    for (slot, row) in [1, 4, 6, 7].into_iter().enumerate() {
        let uid = OWN + slot as u64;
        assert_eq!(rack.hear(0, &clean(uid)), 0);
        (expected.marks[row], expected.rows[row]) = (0, uid);
        expected.record[at::SLOT] += 1;
        expected.record[at::COUNT] += 1;
        assert_eq!(rack, expected);
    }
}

#[test]
fn full_at_40_or_with_no_free_row() {
    let mut random = Random::new(8);
    for (own, other, ending) in
        [(39, 24, 0), (39, 25, 3), (40, 0, 3), (40, 24, 3), (23, 40, 0), (24, 40, 3)]
    {
        let mut rack = Rack::any(&mut random, own, other);
        let (rows, marks) = (rack.rows.clone(), rack.marks.clone());
        assert_eq!(rack.hear(0, &clean(OWN)), 0);
        assert_eq!(rack.record[at::ENDING], ending, "{own} {other}");
        assert_eq!((rack.rows, rack.marks) == (rows, marks), ending == 3);
    }
}

/// W6: over a shared list too another first byte is a clash, and never full.
#[test]
fn another_first_byte_takes_no_row() {
    let mut random = Random::new(10);
    for (own, other) in [(0, 0), (39, 24), (39, 25), (40, 0), (40, 24)] {
        for level in [0, 12, 13] {
            let mut rack = Rack::any(&mut random, own, other);
            rack.record[at::LEVEL] = level;
            let mut expected = rack.clone();
            assert_eq!(rack.hear(0, &clean(0)), 0);
            if level == 13 {
                expected.record[at::ENDING] = 2;
            } else {
                expected.record[at::MARKS][2 * usize::from(level)] = 0x01;
                expected.record[at::SLOT] = 1;
            }
            assert_eq!(rack, expected);
        }
    }
}

/// A call with every fault, mended from the first that is looked for on.
#[test]
fn order_of_refusals() {
    let mut random = Random::new(9);
    let mut rack = Rack::any(&mut random, 41, 0);
    rack.record[at::SLOT..].copy_from_slice(&[16, 1, 1]);
    rack.rows.truncate(63);
    let mark = std::mem::replace(&mut rack.marks[63], 2);
    let refused = |rack: &Rack, number: u32, said: i64| {
        let mut after = rack.clone();
        assert_eq!(after.hear(number, &clean(OWN)), said);
        assert_eq!(after == *rack, said != 0);
    };
    for number in [2, 255, 256, 257, u32::MAX] {
        refused(&rack, number, -13);
    }
    refused(&rack, 0, -10);
    rack.record[at::SLOT] = 0;
    refused(&rack, 0, -6);
    rack.record[at::ENDING] = 0;
    refused(&rack, 0, -5);
    rack.rows.push(0);
    refused(&rack, 0, -5);
    rack.marks[63] = mark;
    refused(&rack, 0, -10);
    rack.record[at::COUNT] = 41;
    refused(&rack, 0, -10);
    refused(&rack, 1, -10);
    let row = rack.of(0)[0].0;
    rack.marks[row] = FREE;
    refused(&rack, 0, -10);
    rack.record[at::COUNT] = 40;
    refused(&rack, 0, 0);
    // Past 64 rows and marks nothing is looked at.
    rack.rows.push(0);
    rack.marks.extend([0, 1, 2, 254]);
    refused(&rack, 0, 0);
}

#[test]
fn refused_starts() {
    let marks = [vec![0; 41], vec![1; 22], vec![FREE]].concat();
    let started = |rack: u32, marks: &[u8]| {
        let (mut record, mut after) = (vec![0xA5; RECORD], marks.to_vec());
        let said = start(rack, 0x30, &mut record, &mut after).map_err(|refusal| refusal as u8);
        let same = (&record, &after[..]) == (&vec![0xA5; RECORD], marks);
        assert_eq!(same, said.is_err());
        said.map(|()| after)
    };
    assert_eq!(started(2, &marks[..63]), Err(13));
    assert_eq!(started(2, &marks), Err(13));
    assert_eq!(started(0, &marks[..63]), Err(5));
    for wrong in 2..FREE {
        assert_eq!(started(0, &[&marks[..63], &[wrong]].concat()), Err(5));
    }
    assert_eq!(started(0, &marks), Ok([vec![FREE; 41], vec![1; 22], vec![FREE]].concat()));
    assert_eq!(started(1, &marks), Ok([vec![0; 41], vec![FREE; 23]].concat()));
    let longer = [&marks[..], &[0, 1, 2]].concat();
    assert_eq!(started(1, &longer), Ok([vec![0; 41], vec![FREE; 23], vec![0, 1, 2]].concat()));
}
