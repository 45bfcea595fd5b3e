//! The kinds that must come up.

use super::{ADDRESSINGS, MODES};
use crate::groups::cards::frames::COMMANDS;
use crate::groups::cards::refusals::CAUSES;

/// The outcomes that are counted by their name alone.
const PLAIN: [&str; 28] = [
    "frame under 4 bytes",
    "wrong check",
    "frame over 64 bytes",
    "b4 or b8 set",
    "inventory with b7 set",
    "inventory when Quiet",
    "inventory, command not 01",
    "inventory, wrong length",
    "inventory, mask too long",
    "inventory, other family",
    "one slot, mask fits",
    "one slot, mask does not fit",
    "slot fits",
    "other slot",
    "sixteen slots, mask does not fit",
    "Select and Address",
    "cut UID",
    "deselected",
    "other UID",
    "Select, not Selected",
    "neither, Quiet",
    "made Quiet",
    "other 02",
    "unaddressed 25",
    "power off",
    "mark, nothing held, no sequence",
    "mark after slot 15",
    "released success",
];

/// Each listed command with the error codes it may meet.
const ERRORS: [(u8, &[u8]); 12] = [
    (0x20, &[0x02, 0x10]),
    (0x21, &[0x02, 0x10, 0x12]),
    (0x22, &[0x02, 0x10, 0x11]),
    (0x23, &[0x02, 0x10]),
    (0x25, &[0x02, 0x03]),
    (0x26, &[0x02, 0x03]),
    (0x27, &[0x02, 0x12]),
    (0x28, &[0x02, 0x11]),
    (0x29, &[0x02, 0x12]),
    (0x2A, &[0x02, 0x11]),
    (0x2B, &[0x02, 0x03]),
    (0x2C, &[0x02, 0x03, 0x10]),
];

/// Kinds that depend on what went before, or on the bytes of a record.
const HISTORIES: [&str; 18] = [
    "record: lock flag over 1",
    "record: mode over 2",
    "record: sequence over 1",
    "record: no sequence, its bytes not 0",
    "history: sequence from slot 0 to its end",
    "history: bad frame ended a sequence",
    "history: bad frame dropped a held answer",
    "history: good frame ended a sequence",
    "history: good frame dropped a held answer",
    "history: power off ended a sequence",
    "history: power off dropped a held answer",
    "history: release left a sequence",
    "history: Quiet card answered a mark",
    "inventory, padding set, mask fits",
    "sequence begun, mask does not fit",
    "deselected with Option",
    "deselected with bytes after the UID",
    "made Quiet with Option",
];

/// Every row of the table.
pub fn rows() -> Vec<String> {
    let mut rows: Vec<String> = PLAIN.iter().chain(&HISTORIES).map(|s| s.to_string()).collect();
    for (command, codes) in ERRORS {
        let holds = matches!(command, 0x21 | 0x22 | 0x27..=0x2A);
        let reads = matches!(command, 0x20 | 0x23);
        rows.push(format!("{command:02X} success"));
        rows.extend(reads.then(|| format!("{command:02X} success with Option")));
        rows.extend(holds.then(|| format!("{command:02X} success held")));
        for code in codes {
            rows.push(format!("{command:02X} error {code:02X}"));
            rows.extend(holds.then(|| format!("{command:02X} error {code:02X} held")));
        }
    }
    rows.extend(["01", "24", "unlisted"].map(|command| format!("{command} error 01")));
    rows.extend(["02", "10", "11", "12"].map(|code| format!("released error {code}")));
    rows.extend(CAUSES.map(|(number, cause)| format!("refused {number}: {cause}")));
    rows.extend(["sixteen slots, 61", "one slot, 65"].map(|kind| format!("{kind}: too long")));
    rows
}

/// Kinds too many for a row each: the table they belong to, and their name.
pub fn cells() -> Vec<(&'static str, String)> {
    let mut cells = Vec::new();
    for event in ["frame", "mark", "power off"] {
        for number in 1..=4 {
            cells.push(("each refusal of each event", format!("{event} {number}")));
        }
    }
    for command in COMMANDS.map(|command| format!("{command:02X}")) {
        for mode in MODES {
            for addressing in ADDRESSINGS {
                for option in [false, true] {
                    let cell = format!("{command} {mode} {addressing} {option}");
                    cells.push(("command, mode, addressing, Option", cell));
                }
            }
        }
    }
    for slot in 0..16 {
        cells.push(("answer in each slot", format!("{slot}")));
    }
    for length in 0..=64 {
        cells.push(("fitting mask length, one slot", format!("{length}")));
        if length <= 60 {
            cells.push(("fitting mask length, sixteen slots", format!("{length}")));
        }
    }
    for slots in ["one", "sixteen"] {
        for family in ["none", "00", "X0", "0Y", "XY"] {
            cells.push(("family, slots", format!("{family} called, {slots}")));
        }
        for family in ["X0", "0Y", "XY"] {
            cells.push(("family, slots", format!("{family} not called, {slots}")));
        }
    }
    cells
}
