//! Requests made, played to a card, and their answers read. What the board's
//! call shows is held against the card itself too.

use super::draws::{data_for, room, to_card};
use super::held::is_so;
use super::table::{Column, Table};
use crate::calls::reader::Shown;
use crate::calls::Calls;
use crate::groups::cards::tags;
use crate::groups::counts::Counts;
use crate::random::Random;
use crate::reference::card::Said;
use crate::reference::reader::{Read, Request, To, MADE_MAX};
use crate::reference::record::{read, Event, Tag};
use crate::reference::Refusal;

const CARDS: usize = 20_000;
const EXCHANGES_EACH: usize = 22;

const ROWS: [&str; 17] = [
    "exchanges",
    "mode number over 2",
    "Option number over 1",
    "a sequence was running",
    "an older answer was held",
    "held, then released by a slot mark",
    "request of 45 bytes",
    "answer of 8451 bytes",
    "rooms that just fit",
    "more room for blocks",
    "more room for locks",
    "another size: 20 refused 11",
    "another size: 21 code 02",
    "another size: 21 code 02, held first",
    "another size: 23 refused 11",
    "another size: code 10, 11, 12 or 03",
    "another size: 22 or 25 to 2C success",
];
const EACH_SIZE: &str = "cards of each block size";
const EACH_NUMBER: &str = "cards of each number of blocks";
const EACH_FIRST: &str = "success from each first block";
const OTHER: &str = "another size: 20 and 23 refused, 21 code 02, each mode and Option";

pub fn run(calls: &mut Calls, random: &mut Random) {
    let mut counts = Counts::default();
    for row in ROWS {
        counts.expect(row);
    }
    for command in [0x20, 0x21, 0x23] {
        for to in [To::All, To::Uid, To::Selected] {
            for option in [false, true] {
                counts.expect_cell(OTHER, format!("{command:02X} {to:?} {option}"));
            }
        }
    }
    for number in 1..=256 {
        counts.expect_cell(EACH_NUMBER, number.to_string());
        counts.expect_cell(EACH_FIRST, (number - 1).to_string());
        if number <= 32 {
            counts.expect_cell(EACH_SIZE, number.to_string());
        }
    }
    let mut table = Table::new();
    for _ in 0..CARDS {
        calls.null_when_empty = random.once_in(2);
        let mut tag = tags::any(random);
        let card = read(&tag.record).expect("a right record");
        counts.cell(EACH_SIZE, &card.size.to_string());
        counts.cell(EACH_NUMBER, &card.blocks.to_string());
        for _ in 0..EXCHANGES_EACH {
            if random.once_in(6) {
                tags::disturb(random, &mut tag.record);
            }
            if random.once_in(8) {
                tag.record[21] = random.pick(&[0, 1, 2]);
            }
            exchange(calls, random, &mut counts, &mut table, &mut tag);
        }
    }
    calls.null_when_empty = false;
    table.end(&mut calls.tally);
    counts.end(&mut calls.tally, "kinds of exchanges");
}

fn exchange(
    calls: &mut Calls,
    random: &mut Random,
    counts: &mut Counts,
    table: &mut Table,
    tag: &mut Tag,
) {
    let card = read(&tag.record).expect("a right record");
    let request = to_card(random, &card);
    let data = data_for(random, &request);
    let made = calls.make(request, &data, room(random, MADE_MAX)).expect("a right request");
    let before = tag.clone();
    let alike = u32::from(request.size) == card.size;
    let rows = [
        (true, "exchanges"),
        (request.mode > 2, "mode number over 2"),
        (request.option > 1, "Option number over 1"),
        (card.sequence.is_some(), "a sequence was running"),
        (card.held.is_some(), "an older answer was held"),
        (made.len() == MADE_MAX, "request of 45 bytes"),
    ];
    rows_that_hold(counts, &rows);

    let space = tags::room(random, tag);
    let mut said = calls.card(&Event::Frame(made), tag, space).expect("a right card");
    let held = read(&tag.record).expect("a right record").held.is_some();
    if held {
        if alike {
            table.count(&request, Column::Held);
        }
        counts.row("held, then released by a slot mark");
        said = calls.card(&Event::Mark, tag, space).expect("a right card");
    }
    let Said::Answer(_, answer) = said else {
        if alike {
            table.count(&request, Column::Silent);
        }
        return;
    };
    let asked = request.asked();
    let rooms = (room(random, asked.0), room(random, asked.1));
    let shown = calls.read(request, &answer, rooms);
    let rows = [
        (answer.len() == 8451, "answer of 8451 bytes"),
        (rooms == asked, "rooms that just fit"),
        (rooms.0 > asked.0, "more room for blocks"),
        (rooms.1 > asked.1, "more room for locks"),
    ];
    rows_that_hold(counts, &rows);
    calls.tally.count(is_so(&request, &data, [&before, tag], &shown), || {
        let (outcome, reading) = (&shown.outcome, &shown.reading);
        format!("not what the card holds: {request:X?}\n  board {reading:X?}\n  {outcome:X?}")
    });
    let column = Column::of(&shown.outcome);
    if column == Some(Column::Success) && matches!(request.command, 0x20..=0x23 | 0x2C) {
        counts.cell(EACH_FIRST, &request.first.to_string());
    }
    match column {
        Some(column) if alike => table.count(&request, column),
        _ if alike => {}
        _ => other_size(counts, &request, &shown, held),
    }
}

fn other_size(counts: &mut Counts, request: &Request, shown: &Shown, held: bool) {
    let &Request { command, .. } = request;
    let mut cell = || {
        let (to, option) = (request.to(), request.has_option());
        counts.cell(OTHER, &format!("{command:02X} {to:?} {option}"));
    };
    match (command, &shown.outcome) {
        (0x20 | 0x23, Err(Refusal::Answer)) => {
            cell();
            counts.row(&format!("another size: {command:02X} refused 11"));
        }
        (0x21, Ok(Read::Error(0x02))) => {
            cell();
            counts.row("another size: 21 code 02");
            rows_that_hold(counts, &[(held, "another size: 21 code 02, held first")]);
        }
        (_, Ok(Read::Error(_))) => counts.row("another size: code 10, 11, 12 or 03"),
        (0x22 | 0x25..=0x2C, Ok(_)) => counts.row("another size: 22 or 25 to 2C success"),
        // What the card holds tells that this can't be.
        _ => {}
    }
}

fn rows_that_hold(counts: &mut Counts, rows: &[(bool, &str)]) {
    for (_, row) in rows.iter().filter(|(holds, _)| *holds) {
        counts.row(row);
    }
}
