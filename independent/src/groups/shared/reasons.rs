//! What calls are refused for, cause by cause, and how each is brought about.

use super::arm::{self, Arm};
use crate::groups::walks::refusals::{break_clause, CLAUSES, ENDINGS};
use crate::random::Random;
use crate::reference::shared::MOST;
use crate::reference::walk::record::at;
use crate::reference::walk::PLACES;

/// What a call may be refused for, in the order in which it looks.
#[derive(Clone, Copy, Debug, PartialEq, Eq)]
pub enum Reason {
    Rack,
    Record,
    Ended,
    List,
    Beside,
}

/// A hearing looks for all; a start for the first and the fourth.
pub const REASONS: [Reason; 5] =
    [Reason::Rack, Reason::Record, Reason::Ended, Reason::List, Reason::Beside];

/// Rack numbers, some of which a narrower type would take for 0 or 1.
const RACKS: [(&str, &[u32]); 6] = [
    ("rack 2", &[2]),
    ("rack 255", &[255]),
    ("rack 256", &[256]),
    ("rack 257", &[257]),
    ("rack 4294967295", &[u32::MAX]),
    ("another rack", &[3, 254, 0x1_0000, 0x1_0001, 0x0100_0000, 0x8000_0000, 0x8000_0001]),
];

const LISTS: [&str; 10] = [
    "63 marks",
    "fewer marks",
    "no marks",
    "wrong mark in row 0",
    "wrong mark in row 63",
    "wrong mark between",
    "63 rows",
    "fewer rows",
    "no rows",
    "63 rows and 63 marks",
];

/// Those of a list without rows.
const MARKS: usize = 6;

const BESIDE: [&str; 5] = [
    "its rack over 40",
    "its rack over 40, count 40",
    "the other rack over 40",
    "count over its rows",
    "count under its rows",
];

impl Reason {
    pub fn number(self) -> u8 {
        match self {
            Reason::Rack => 13,
            Reason::Record | Reason::Beside => 10,
            Reason::Ended => 6,
            Reason::List => 5,
        }
    }

    pub fn name(self) -> String {
        match self {
            Reason::Beside => "10 beside the list".to_string(),
            reason => reason.number().to_string(),
        }
    }

    /// The causes in a hearing.
    pub fn causes(self) -> Vec<&'static str> {
        match self {
            Reason::Rack => RACKS.map(|(name, _)| name).to_vec(),
            Reason::Record => CLAUSES.to_vec(),
            Reason::Ended => ENDINGS.map(|(name, _)| name).to_vec(),
            Reason::List => LISTS.to_vec(),
            Reason::Beside => BESIDE.to_vec(),
        }
    }

    /// The causes in a start.
    pub fn causes_of_start(self) -> Vec<&'static str> {
        match self {
            Reason::List => LISTS[..MARKS].to_vec(),
            reason => reason.causes(),
        }
    }
}

/// A call to be refused, and why.
pub struct Call {
    pub rack: u32,
    pub arm: Arm,
    pub causes: Vec<(Reason, &'static str)>,
}

/// Brings a cause about in a call that would be served.
pub fn break_call(random: &mut Random, call: &mut Call, rack: usize, reason: Reason, cause: &str) {
    let Arm { records, rows, marks, .. } = &mut call.arm;
    let record = &mut records[rack];
    match reason {
        Reason::Rack => call.rack = of_cause(random, &RACKS, cause),
        Reason::Record => break_clause(random, cause, record),
        Reason::Ended => record[at::ENDING] = of_cause(random, &ENDINGS, cause),
        Reason::List => break_list(random, cause, rows, marks),
        Reason::Beside => break_beside(random, cause, rack, record, marks),
    }
}

fn of_cause<T: Copy>(random: &mut Random, table: &[(&str, &[T])], cause: &str) -> T {
    let (_, all) = table.iter().find(|(name, _)| *name == cause).expect("a cause of the table");
    random.pick(all)
}

fn break_list(random: &mut Random, cause: &str, rows: &mut Vec<u64>, marks: &mut Vec<u8>) {
    let last = PLACES - 1;
    let between = 1 + random.below(last - 1);
    match cause {
        "63 marks" => marks.truncate(last),
        "fewer marks" => marks.truncate(between),
        "no marks" => marks.clear(),
        "wrong mark in row 0" => marks[0] = wrong_mark(random),
        "wrong mark in row 63" => marks[last] = wrong_mark(random),
        "wrong mark between" => marks[between] = wrong_mark(random),
        "63 rows" => rows.truncate(last),
        "fewer rows" => rows.truncate(between),
        "no rows" => rows.clear(),
        "63 rows and 63 marks" => {
            rows.truncate(last);
            marks.truncate(last);
        }
        _ => unreachable!(),
    }
}

/// Lays the first 64 marks anew, and the count.
fn break_beside(
    random: &mut Random,
    cause: &str,
    rack: usize,
    record: &mut [u8],
    marks: &mut [u8],
) {
    let any = MOST + 1 + random.below(PLACES - MOST);
    let over = random.pick(&[MOST + 1, MOST + 2, PLACES, any]);
    let left = random.below(PLACES - over + 1);
    let right = random.below(MOST + 1);
    let beside = random.below(MOST.min(PLACES - right) + 1);
    let (own, other, count) = match cause {
        "its rack over 40" => (over, left, over),
        "its rack over 40, count 40" => (over, left, MOST),
        "the other rack over 40" => (left, over, left),
        "count over its rows" => {
            let more = right + 1 + random.below(PLACES - right);
            (right, beside, random.pick(&[right + 1, PLACES, more]))
        }
        "count under its rows" => {
            let (own, beside) = (right.max(1), beside.min(PLACES - MOST));
            let fewer = random.below(own);
            (own, beside, random.pick(&[own - 1, 0, fewer]))
        }
        _ => unreachable!(),
    };
    let owned = if rack == 0 { [own, other] } else { [other, own] };
    marks[..PLACES].copy_from_slice(&arm::marks(random, owned));
    record[at::COUNT] = count as u8;
}

fn wrong_mark(random: &mut Random) -> u8 {
    let any = 2 + random.below(253) as u8;
    random.pick(&[2, 3, 127, 128, 254, any])
}
