//! Answers that no card gave, made of right ones, and reading that is refused
//! before the answer is looked at.

mod cases;

use super::draws::{any, room, COMMANDS};
use crate::calls::Calls;
use crate::groups::counts::Counts;
use crate::random::Random;
use crate::reference::check::sealed;
use crate::reference::reader::Read;
use crate::reference::Refusal;
use cases::{
    case, change, commands, garbage, right, Case, EACH_CODE, EACH_FLAGS, EACH_OTHER, EACH_START,
};

const EACH: usize = 4000;

/// A cause, and the number it gives: 0 where the answer is read.
const CAUSES: [(u8, &str); 24] = [
    (0, "success"),
    (0, "error"),
    (11, "wrong check"),
    (11, "one byte changed"),
    (11, "flags 02 to FF"),
    (11, "error of 3 bytes"),
    (11, "error of 5 bytes"),
    (11, "error with what a success has"),
    (11, "success cut by one"),
    (11, "success longer by one"),
    (11, "success of another length"),
    (11, "2B without 0F"),
    (11, "two bytes 00 00"),
    (11, "one byte"),
    (11, "no bytes"),
    (11, "garbage"),
    (8, "blocks one short"),
    (8, "locks one short"),
    (8, "before 11"),
    (7, "another command"),
    (7, "25 without a UID"),
    (7, "block size 0"),
    (7, "block size over 32"),
    (7, "before 8 and 11"),
];

/// What is sealed anew may be read or not.
const SEALED: [&str; 2] = ["one byte changed, sealed anew", "garbage, sealed"];

const EACH_COMMAND: &str = "each cause, each command";
const EACH_ROOM: &str = "room one short, each command that asks, with and without Option";
const LONGEST: &str = "answers of 8451 bytes or more";

pub fn run(calls: &mut Calls, random: &mut Random) {
    let mut counts = expected();
    for turn in 0..EACH {
        calls.null_when_empty = random.once_in(2);
        for (number, cause) in CAUSES {
            one(calls, random, &mut counts, turn, number, cause);
        }
        for kind in SEALED {
            sealed_anew(calls, random, &mut counts, kind);
        }
    }
    calls.null_when_empty = false;
    counts.end(&mut calls.tally, "kinds of answers");
}

fn expected() -> Counts {
    let mut counts = Counts::default();
    for (number, cause) in CAUSES {
        counts.expect(format!("{}: {cause}", verdict(number)));
        for command in commands(cause) {
            counts.expect_cell(EACH_COMMAND, format!("{cause}, {command:02X}"));
        }
    }
    for kind in SEALED {
        counts.expect(format!("{}: {kind}", verdict(0)));
        counts.expect(format!("{}: {kind}", verdict(11)));
    }
    counts.expect(LONGEST);
    for short in ["20", "20 Option", "23", "23 Option"] {
        counts.expect_cell(EACH_ROOM, format!("blocks one short, {short}"));
    }
    for short in ["20 Option", "23 Option", "2C", "2C Option"] {
        counts.expect_cell(EACH_ROOM, format!("locks one short, {short}"));
    }
    for byte in 0..=255 {
        counts.expect_cell(EACH_CODE, format!("{byte:02X}"));
        if byte > 0x01 {
            counts.expect_cell(EACH_FLAGS, format!("{byte:02X}"));
        }
        if byte != 0x0F {
            counts.expect_cell(EACH_START, format!("{byte:02X}"));
        }
        if !COMMANDS.contains(&byte) {
            counts.expect_cell(EACH_OTHER, format!("{byte:02X}"));
        }
    }
    counts
}

fn verdict(number: u8) -> String {
    if number == 0 {
        "read".to_string()
    } else {
        format!("refused {number}")
    }
}

fn number(outcome: &Result<Read, Refusal>) -> u8 {
    match outcome {
        Ok(_) => 0,
        Err(refusal) => *refusal as u8,
    }
}

fn one(
    calls: &mut Calls,
    random: &mut Random,
    counts: &mut Counts,
    turn: usize,
    right: u8,
    cause: &str,
) {
    let Case { request, answer, rooms, command, special } = case(random, turn, cause);
    let outcome = calls.read(request, &answer, rooms).outcome;
    let said = number(&outcome);
    calls.tally.count(said == right, || {
        format!("{cause}: the reference says {said}, expected {right}\n  {request:X?}")
    });
    if said != right {
        return;
    }
    counts.row(&format!("{}: {cause}", verdict(right)));
    if !commands(cause).is_empty() {
        counts.cell(EACH_COMMAND, &format!("{cause}, {command:02X}"));
    }
    if let Some((table, byte)) = special {
        counts.cell(table, &format!("{byte:02X}"));
    }
    if cause.ends_with("one short") {
        let option = if request.has_option() { " Option" } else { "" };
        counts.cell(EACH_ROOM, &format!("{cause}, {command:02X}{option}"));
    }
    if answer.len() >= 8451 {
        counts.row(LONGEST);
    }
}

fn sealed_anew(calls: &mut Calls, random: &mut Random, counts: &mut Counts, kind: &str) {
    let request = any(random, &COMMANDS);
    let asked = request.asked();
    let mut message = right(random, &request);
    if kind == "garbage, sealed" {
        message = garbage(random, message.len());
        if let Some(flags) = message.first_mut().filter(|_| random.once_in(2)) {
            *flags = random.pick(&[0x00, 0x01]);
        }
    } else {
        change(random, &mut message);
    }
    let rooms = (room(random, asked.0), room(random, asked.1));
    let outcome = calls.read(request, &sealed(&message), rooms).outcome;
    counts.row(&format!("{}: {kind}", verdict(number(&outcome))));
}
