//! Requests that are not made, for each cause, and those that just are.

use super::draws::{any, data_for, room, COMMANDS};
use crate::calls::Calls;
use crate::groups::counts::Counts;
use crate::random::Random;
use crate::reference::reader::MADE_MAX;

const EACH: usize = 1000;

/// A cause, and the number it gives: 0 where the request is made.
const CAUSES: [(u8, &str); 14] = [
    (0, "room 45"),
    (0, "data not looked at"),
    (7, "another command"),
    (7, "25 without a UID"),
    (7, "block size 0"),
    (7, "block size over 32"),
    (7, "data one short"),
    (7, "data one longer"),
    (7, "no data"),
    (7, "data of size and 256 more"),
    (7, "before 8"),
    (8, "room 44"),
    (8, "room short"),
    (8, "no room"),
];

const EACH_COMMAND: &str = "each cause, each command";
const EACH_OTHER: &str = "each other command";

pub fn run(calls: &mut Calls, random: &mut Random) {
    let mut counts = Counts::default();
    let others: Vec<u8> = (0..=255).filter(|byte| !COMMANDS.contains(byte)).collect();
    for byte in &others {
        counts.expect_cell(EACH_OTHER, format!("{byte:02X}"));
    }
    for (number, cause) in CAUSES {
        counts.expect(row(number, cause));
        for command in commands(cause) {
            counts.expect_cell(EACH_COMMAND, format!("{cause}, {command:02X}"));
        }
    }
    for turn in 0..EACH {
        calls.null_when_empty = random.once_in(2);
        for (number, cause) in CAUSES {
            one(calls, random, &mut counts, others[turn % others.len()], number, cause);
        }
    }
    calls.null_when_empty = false;
    counts.end(&mut calls.tally, "kinds of requests");
}

fn row(number: u8, cause: &str) -> String {
    if number == 0 {
        format!("made: {cause}")
    } else {
        format!("refused {number}: {cause}")
    }
}

/// The commands that can meet this cause.
fn commands(cause: &str) -> &'static [u8] {
    match cause {
        "another command" => &[],
        "25 without a UID" => &[0x25],
        "data not looked at" => &[0x20, 0x22, 0x23, 0x25, 0x26, 0x27, 0x28, 0x29, 0x2A, 0x2B, 0x2C],
        cause if cause.contains("data") => &[0x21],
        _ => &COMMANDS,
    }
}

fn one(
    calls: &mut Calls,
    random: &mut Random,
    counts: &mut Counts,
    other: u8,
    right: u8,
    cause: &str,
) {
    let from = if commands(cause).is_empty() { &COMMANDS } else { commands(cause) };
    let mut request = any(random, from);
    let command = request.command;
    let mut data = data_for(random, &request);
    let mut space = room(random, MADE_MAX);
    match cause {
        "room 45" => space = 45,
        "data not looked at" => {
            let length = random.pick(&[0, 1, 33, 300]);
            data = random.bytes(length);
        }
        "another command" => {
            request.command = other;
            counts.cell(EACH_OTHER, &format!("{other:02X}"));
        }
        "25 without a UID" => request.mode = random.pick(&[0, 2, 3, 17, 129, 255]),
        "block size 0" => {
            request.size = 0;
            data.clear();
        }
        "block size over 32" => {
            request.size = random.pick(&[33, 34, 64, 256, 260, 288, 65535]);
            data = random.bytes(usize::from(request.size));
        }
        "data one short" => drop(data.pop()),
        "data one longer" => data.push(random.byte()),
        "no data" => data.clear(),
        "data of size and 256 more" => data = random.bytes(data.len() + 256),
        "before 8" => {
            request.size = random.pick(&[0, 33]);
            space = random.below(45);
        }
        "room 44" => space = 44,
        "room short" => space = random.below(45),
        "no room" => space = 0,
        _ => unreachable!(),
    }
    let outcome = calls.make(request, &data, space);
    let said = outcome.map_or_else(|refusal| refusal as u8, |_| 0);
    calls.tally.count(said == right, || {
        format!("{cause}: the reference says {said}, expected {right}\n  {request:X?}")
    });
    if said != right {
        return;
    }
    counts.row(&row(right, cause));
    if !commands(cause).is_empty() {
        counts.cell(EACH_COMMAND, &format!("{cause}, {command:02X}"));
    }
}
