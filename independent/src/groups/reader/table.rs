//! What became of requests to cards of their block size: a table by command,
//! mode and Option. One that can come up and never did is a hole, and so is one
//! that can't and did.

use super::draws::COMMANDS;
use crate::reference::reader::{Read, Request, To};
use crate::reference::Refusal;
use crate::tally::Tally;
use std::collections::BTreeMap;

#[derive(Clone, Copy, PartialEq, Eq)]
pub enum Column {
    Silent,
    Held,
    Success,
    Code02,
    Code03,
    Code10,
    Code11,
    Code12,
}

use Column::*;

const COLUMNS: [(Column, &str); 8] = [
    (Silent, "silent"),
    (Held, "held"),
    (Success, "success"),
    (Code02, "02"),
    (Code03, "03"),
    (Code10, "10"),
    (Code11, "11"),
    (Code12, "12"),
];

impl Column {
    pub fn of(outcome: &Result<Read, Refusal>) -> Option<Column> {
        match outcome {
            Ok(Read::Error(0x02)) => Some(Code02),
            Ok(Read::Error(0x03)) => Some(Code03),
            Ok(Read::Error(0x10)) => Some(Code10),
            Ok(Read::Error(0x11)) => Some(Code11),
            Ok(Read::Error(0x12)) => Some(Code12),
            Ok(Read::Error(_)) | Err(_) => None,
            Ok(_) => Some(Success),
        }
    }

    /// Whether it can come up. What is held is counted once more when released.
    fn can(self, command: u8, option: bool) -> bool {
        let optionless = option && matches!(command, 0x25 | 0x26 | 0x2B | 0x2C);
        match self {
            Silent => true,
            Held => option && matches!(command, 0x21 | 0x22 | 0x27..=0x2A),
            Success => !optionless,
            Code02 => false,
            Code03 => optionless,
            Code10 => !optionless && matches!(command, 0x20..=0x23 | 0x2C),
            Code11 => matches!(command, 0x22 | 0x28 | 0x2A),
            Code12 => matches!(command, 0x21 | 0x27 | 0x29),
        }
    }
}

/// By command, whom it goes to, and Option.
pub struct Table(BTreeMap<(u8, To, bool), [u64; COLUMNS.len()]>);

impl Table {
    pub fn new() -> Table {
        let mut rows = BTreeMap::new();
        for command in COMMANDS {
            for to in [To::All, To::Uid, To::Selected] {
                for option in [false, true] {
                    if command != 0x25 || to == To::Uid {
                        rows.insert((command, to, option), [0; COLUMNS.len()]);
                    }
                }
            }
        }
        Table(rows)
    }

    pub fn count(&mut self, request: &Request, column: Column) {
        let row = (request.command, request.to(), request.has_option());
        self.0.get_mut(&row).expect("a request that is made")[column as usize] += 1;
    }

    pub fn end(&self, tally: &mut Tally) {
        let names: String = COLUMNS.iter().map(|(_, name)| format!("{name:>9}")).collect();
        println!("exchanges with cards of the request's block size (- can't come up):");
        println!("  {:<19}{names}", "");
        for ((command, to, option), counts) in &self.0 {
            let mode = format!("{to:?}").to_lowercase();
            let name = format!("{command:02X} {mode}{}", if *option { " Option" } else { "" });
            let mut cells = String::new();
            for (column, heading) in COLUMNS {
                let count = counts[column as usize];
                let can = column.can(*command, *option);
                cells += &if can { format!("{count:>9}") } else { format!("{:>9}", "-") };
                if can && count == 0 {
                    tally.hole(&format!("never came up: {name}, {heading}"));
                }
                if !can && count > 0 {
                    tally.hole(&format!("came up {count} times and can't: {name}, {heading}"));
                }
            }
            println!("  {name:<19}{cells}");
        }
    }
}
