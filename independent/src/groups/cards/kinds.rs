//! Counts how often each kind of event came up. One that never did is a hole.

mod expected;

use std::collections::BTreeMap;

use super::frames::COMMANDS;
use crate::afi::row;
use crate::reference::card::Said;
use crate::reference::check::is_sound;
use crate::reference::record::{Event, Tag};
use crate::reference::Refusal;
use crate::tally::Tally;

const MODES: [&str; 3] = ["Ready", "Quiet", "Selected"];
const ADDRESSINGS: [&str; 4] = ["neither", "Select", "Address", "both"];

pub struct Kinds {
    rows: BTreeMap<String, u64>,
    /// Kinds too many to print; a row tells the rarest of each.
    cells: BTreeMap<&'static str, BTreeMap<String, u64>>,
    /// Marks since a sequence began with a frame.
    run: Option<usize>,
}

impl Kinds {
    pub fn new() -> Kinds {
        let rows = expected::rows().into_iter().map(|row| (row, 0)).collect();
        let mut kinds = Kinds { rows, cells: BTreeMap::new(), run: None };
        for (table, cell) in expected::cells() {
            kinds.cell(table, cell, 0);
        }
        kinds
    }

    fn row(&mut self, row: &str) {
        match self.rows.get_mut(row) {
            Some(count) => *count += 1,
            None => panic!("a kind with no row: {row}"),
        }
    }

    fn cell(&mut self, table: &'static str, cell: String, times: u64) {
        *self.cells.entry(table).or_default().entry(cell).or_default() += times;
    }

    pub fn new_card(&mut self) {
        self.run = None;
    }

    pub fn refused(
        &mut self,
        event: &Event,
        number: u8,
        cause: &str,
        outcome: &Result<Said, Refusal>,
    ) {
        if outcome.as_ref().is_err_and(|refusal| *refusal as u8 == number) {
            self.row(&format!("refused {number}: {cause}"));
            let event = match event {
                Event::Frame(_) => "frame",
                Event::Mark => "mark",
                Event::PowerOff => "power off",
            };
            self.cell("each refusal of each event", format!("{event} {number}"), 1);
        }
    }

    pub fn served(
        &mut self,
        event: &Event,
        before: &Tag,
        after: &Tag,
        outcome: &Result<Said, Refusal>,
    ) {
        let (why, answer) = match outcome {
            Ok(Said::Silence(why)) => (*why, &[][..]),
            Ok(Said::Answer(why, bytes)) => (*why, &bytes[..]),
            Err(refusal) => panic!("refused: {refusal:?}"),
        };
        let (old, new) = (&before.record, &after.record);
        let command = if let Event::Frame(frame) = event { frame.get(1).copied() } else { None };
        let command = match command {
            Some(command) if COMMANDS.contains(&command) => format!("{command:02X}"),
            _ => "unlisted".to_string(),
        };
        match (why, event) {
            ("success", Event::Frame(frame)) => {
                let reads = matches!(frame[1], 0x20 | 0x23) && frame[0] & 0x40 > 0;
                let option = if reads { " with Option" } else { "" };
                self.row(&format!("{command} success{option}"));
            }
            ("success held", _) => self.row(&format!("{command} success held")),
            ("error", _) => self.row(&format!("{command} error {:02X}", answer[1])),
            ("error held", _) => self.row(&format!("{command} error {:02X} held", new[25])),
            ("released error", _) => self.row(&format!("released error {:02X}", answer[1])),
            _ => self.row(why),
        }
        self.record(old);
        self.history(event, why, answer, old, new);
        match event {
            Event::Frame(frame) if is_sound(frame) => self.frame(frame, why, old),
            _ => {}
        }
    }

    fn record(&mut self, old: &[u8]) {
        let rows = [
            (old[18] > 1 || old[19] > 1, "record: lock flag over 1"),
            (old[21] > 2, "record: mode over 2"),
            (old[22] > 1, "record: sequence over 1"),
            (
                old[22] == 0 && (old[23] > 0 || old[24] > 0 || old[32..] != [0; 8]),
                "record: no sequence, its bytes not 0",
            ),
        ];
        self.rows_that_hold(&rows);
    }

    fn rows_that_hold(&mut self, rows: &[(bool, &str)]) {
        for (_, row) in rows.iter().filter(|(holds, _)| *holds) {
            self.row(row);
        }
    }

    fn history(&mut self, event: &Event, why: &str, answer: &[u8], old: &[u8], new: &[u8]) {
        let actor = match event {
            Event::Frame(frame) if is_sound(frame) => "good frame",
            Event::Frame(_) => "bad frame",
            Event::PowerOff => "power off",
            Event::Mark => "mark",
        };
        if actor != "mark" && old[22] > 0 {
            self.row(&format!("history: {actor} ended a sequence"));
        }
        if actor != "mark" && old[25] > 0 {
            self.row(&format!("history: {actor} dropped a held answer"));
        }
        if why.starts_with("released") && new[22] > 0 {
            self.row("history: release left a sequence");
        }
        if actor == "mark" && old[21] == 1 && !answer.is_empty() {
            self.row("history: Quiet card answered a mark");
        }
        if why == "slot fits" {
            self.cell("answer in each slot", new[23].to_string(), 1);
        }
        self.run = match (event, self.run) {
            (Event::Frame(_), _) if new[22] > 0 => Some(0),
            (Event::Mark, Some(15)) if why == "mark after slot 15" => {
                self.row("history: sequence from slot 0 to its end");
                None
            }
            (Event::Mark, Some(marks)) if usize::from(new[23]) == marks + 1 => Some(marks + 1),
            _ => None,
        };
    }

    /// A sound frame.
    fn frame(&mut self, frame: &[u8], why: &str, old: &[u8]) {
        let flags = frame[0];
        if flags & 0x88 > 0 {
            return;
        }
        let option = flags & 0x40 > 0;
        let rows = [
            (why == "sixteen slots, mask does not fit", "sequence begun, mask does not fit"),
            (why == "deselected" && option, "deselected with Option"),
            (why == "deselected" && frame.len() > 12, "deselected with bytes after the UID"),
            (why == "made Quiet" && option, "made Quiet with Option"),
        ];
        self.rows_that_hold(&rows);
        if flags & 0x04 == 0 {
            if COMMANDS.contains(&frame[1]) {
                let mode = MODES[usize::from(old[21].min(2))];
                let addressing = ADDRESSINGS[usize::from(flags / 16 % 4)];
                let cell = format!("{:02X} {mode} {addressing} {}", frame[1], option);
                self.cell("command, mode, addressing, Option", cell, 1);
            }
            return;
        }
        let (family, one) = (flags & 0x10 > 0, flags & 0x20 > 0);
        let rest = frame.get(if family { 3 } else { 2 }..frame.len() - 2);
        let Some(rest @ [length, ..]) = rest else { return };
        let length = *length;
        let slots = if one { "one" } else { "sixteen" };
        match (why, one, length) {
            ("inventory, mask too long", false, 61) => self.row("sixteen slots, 61: too long"),
            ("inventory, mask too long", true, 65) => self.row("one slot, 65: too long"),
            _ => {}
        }
        let asked = if family { row(frame[2]) } else { "none" };
        if why == "inventory, other family" {
            self.cell("family, slots", format!("{asked} not called, {slots}"), 1);
        }
        let fits = ["one slot, mask fits", "slot fits", "other slot"].contains(&why);
        if !fits {
            return;
        }
        self.cell("family, slots", format!("{asked} called, {slots}"), 1);
        let table = if one {
            "fitting mask length, one slot"
        } else {
            "fitting mask length, sixteen slots"
        };
        self.cell(table, length.to_string(), 1);
        if length % 8 > 0 && rest[rest.len() - 1] >> (length % 8) > 0 {
            self.row("inventory, padding set, mask fits");
        }
    }

    /// Prints the table.
    pub fn end(&self, tally: &mut Tally) {
        let mut rows: Vec<(u64, String)> =
            self.rows.iter().map(|(row, count)| (*count, row.clone())).collect();
        for (table, cells) in &self.cells {
            let (rarest, count) = cells.iter().min_by_key(|(_, count)| **count).unwrap();
            rows.push((*count, format!("{table}: rarest of {}, {rarest}", cells.len())));
        }
        println!("kinds of card events:");
        for (count, row) in &rows {
            println!("{count:>9}  {row}");
        }
        for (_, row) in rows.iter().filter(|(count, _)| *count == 0) {
            tally.hole(&format!("never came up: {row}"));
        }
    }
}
