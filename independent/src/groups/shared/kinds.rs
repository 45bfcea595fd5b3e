//! The kinds of calls that must come up.

mod refused;

use super::arm::Arm;
use crate::groups::counts::Counts;
use crate::groups::walks::kinds::CLASHES;
use crate::groups::walks::refusals::HEARINGS;
use crate::groups::walks::replies::{FALSE, TRUE};
use crate::reference::shared::{FREE, MOST};
use crate::reference::walk::record::read;
use crate::reference::walk::{Ending, Heard, Meaning, LAST_SLOT, PLACES};
use crate::tally::Tally;

const STARTED: &str = "starts";
const SLOTS: &str = "slots heard";
const LEAST_STARTS: u64 = 20_000;
const LEAST_SLOTS: u64 = 200_000;

const STARTS: [&str; 10] = [
    "start, no row to free",
    "start, 1 to 39 rows to free",
    "start, 40 rows to free",
    "start, over 40 rows to free",
    "start, over 40 rows of the other",
    "start, no free row before",
    "start over no walk's record",
    "start over clashes that wait",
    "start, a wrong mark past 64",
    "start, a mark of the rack past 64",
];

const TAKEN: [&str; 13] = [
    "row taken, the first",
    "row taken, the last",
    "row taken with owned rows on both sides",
    "row taken past all owned rows",
    "row taken that its rack has freed",
    "row taken that the other has freed",
    "row taken, its rack's 40th",
    "row taken, the last that was free",
    "row taken, the other has 40",
    "row taken, the other has the UID too",
    "row taken, a wrong mark past 64",
    "row taken in slot 15, then complete",
    "row taken in slot 15, then overrun",
];

const FULL: [&str; 3] = [
    "full, 40 rows and others free",
    "full, no row free and fewer than 40",
    "full, 40 rows and none free",
];

const CLASHED: [&str; 4] = [
    "another first byte, its rack has 39 rows",
    "another first byte, its rack has 40 rows",
    "another first byte, no row is free",
    "another first byte in slot 15, then overrun",
];

const ENDED: [&str; 7] = [
    "complete by silence",
    "complete by a clean UID",
    "twins by a clash",
    "full by a clean UID",
    "overrun by silence",
    "overrun by a clash",
    "overrun by a clean UID",
];

const MOMENTS: &str = "start at each slot and after each ending, on each rack";
const ENDINGS: &str = "each ending, on each rack";
const SERVED: &str = "each call served on each rack, with 64 and 70 rows and marks";
const SIZES: &str = "63, 64 and 70 rows and marks in each call";
const NUMBERS: &str = "rack 0, 1, 2, 255, 256, 257 and 4294967295 in each call";

const LENGTHS: [usize; 3] = [PLACES - 1, PLACES, PLACES + 6];
const RACKS: [u32; 7] = [0, 1, 2, 255, 256, 257, u32::MAX];

pub struct Kinds(Counts);

impl Kinds {
    pub fn new() -> Kinds {
        let mut counts = Counts::default();
        counts.expect_times(STARTED, LEAST_STARTS..=u64::MAX);
        counts.expect_times(SLOTS, LEAST_SLOTS..=u64::MAX);
        for kind in STARTS.iter().chain(&TAKEN).chain(&FULL).chain(&CLASHED) {
            counts.expect(*kind);
        }
        for name in TRUE.iter().chain(&FALSE) {
            counts.expect(format!("heard {name}"));
        }
        for why in CLASHES {
            counts.expect(format!("clash, {why}"));
        }
        for ending in ["Complete", "Twins", "Full"] {
            counts.expect(format!("from the start to {ending}"));
        }
        for rack in [0, 1] {
            for moment in moments() {
                counts.expect_cell(MOMENTS, format!("{moment}, rack {rack}"));
            }
            for ending in ENDED {
                counts.expect_cell(ENDINGS, format!("{ending}, rack {rack}"));
            }
        }
        expect_sizes(&mut counts);
        refused::expect(&mut counts);
        Kinds(counts)
    }

    /// A start that is served.
    pub fn started(&mut self, rack: usize, before: &Arm) {
        self.0.row(STARTED);
        let owned = before.list().of(rack as u8).len();
        let walk = read(&before.records[rack]);
        let waits = walk.iter().any(|walk| walk.waiting.iter().any(|slots| !slots.is_empty()));
        let past = &before.marks[PLACES..];
        let kinds = [
            owned == 0,
            (1..MOST).contains(&owned),
            owned == MOST,
            owned > MOST,
            before.list().of(1 - rack as u8).len() > MOST,
            before.list().free() == 0,
            walk.is_err(),
            waits,
            past.iter().any(is_wrong),
            past.contains(&(rack as u8)),
        ];
        self.0.rows(STARTS, kinds);
        if let Ok(walk) = walk {
            let moment = match walk.ending {
                Some(ending) => format!("after {ending:?}"),
                None => format!("slot {}", walk.slot),
            };
            self.0.cell(MOMENTS, &format!("{moment}, rack {rack}"));
        }
        self.number("start", rack as u32);
        self.start_of(before.marks.len());
        if LENGTHS[1..].contains(&before.marks.len()) {
            self.0.cell(SERVED, &format!("start, rack {rack}, {} marks", before.marks.len()));
        }
    }

    /// A hearing that is served.
    pub fn heard(&mut self, name: &str, heard: &Heard, rack: usize, before: &Arm, after: &Arm) {
        self.0.row(SLOTS);
        self.0.row(&format!("heard {name}"));
        let (walk, next) = (before.walk(rack), after.walk(rack));
        let kind = match walk.meaning(heard) {
            Meaning::Silence => "silence",
            Meaning::Clash(why) => {
                self.0.row(&format!("clash, {why}"));
                if why == "other first byte" {
                    self.foreign(rack, before, after);
                }
                "a clash"
            }
            Meaning::Clean(uid) => {
                self.clean(uid, rack, before, after);
                "a clean UID"
            }
        };
        if let Some(ending) = next.ending {
            let word = format!("{ending:?}").to_lowercase();
            self.0.cell(ENDINGS, &format!("{word} by {kind}, rack {rack}"));
        }
        let way = way(heard);
        self.number(way, rack as u32);
        self.hearing_of(way, before);
        let (rows, marks) = (before.rows.len(), before.marks.len());
        if LENGTHS[1..].contains(&rows) && LENGTHS[1..].contains(&marks) {
            let cell = format!("{way}, rack {rack}, {rows} rows, {marks} marks");
            self.0.cell(SERVED, &cell);
        }
    }

    fn clean(&mut self, uid: u64, rack: usize, before: &Arm, after: &Arm) {
        let (list, own) = (before.list(), before.list().of(rack as u8).len());
        let others = list.of(1 - rack as u8);
        let ending = after.walk(rack).ending;
        if ending == Some(Ending::Full) {
            let (most, none) = (own == MOST, list.free() == 0);
            self.0.rows(FULL, [most && !none, none && !most, most && none]);
            return;
        }
        let Some(row) = (0..PLACES).find(|&row| before.marks[row] != after.marks[row]) else {
            return;
        };
        let owned = |rows: &[u8]| rows.iter().any(|&mark| mark != FREE);
        let (below, above) = (&before.marks[..row], &before.marks[row + 1..PLACES]);
        let last_slot = before.walk(rack).slot == LAST_SLOT;
        let kinds = [
            row == 0,
            row == PLACES - 1,
            owned(below) && owned(above),
            !owned(above),
            before.freed[row] == Some(rack),
            before.freed[row] == Some(1 - rack),
            own + 1 == MOST,
            list.free() == 1,
            others.len() == MOST,
            others.contains(&uid),
            before.marks[PLACES..].iter().any(is_wrong),
            last_slot && ending == Some(Ending::Complete),
            last_slot && ending == Some(Ending::Overrun),
        ];
        self.0.rows(TAKEN, kinds);
    }

    fn foreign(&mut self, rack: usize, before: &Arm, after: &Arm) {
        let own = before.list().of(rack as u8).len();
        let kinds = [
            own + 1 == MOST,
            own == MOST,
            before.list().free() == 0,
            after.walk(rack).ending == Some(Ending::Overrun),
        ];
        self.0.rows(CLASHED, kinds);
    }

    /// A walk from its start among cards.
    pub fn ended_from_start(&mut self, ending: Ending) {
        self.0.row(&format!("from the start to {ending:?}"));
    }

    fn number(&mut self, call: &str, rack: u32) {
        if RACKS.contains(&rack) {
            self.0.cell(NUMBERS, &format!("{call}, rack {rack}"));
        }
    }

    fn start_of(&mut self, marks: usize) {
        if LENGTHS.contains(&marks) {
            self.0.cell(SIZES, &format!("start, {marks} marks"));
        }
    }

    fn hearing_of(&mut self, way: &str, arm: &Arm) {
        let (rows, marks) = (arm.rows.len(), arm.marks.len());
        if LENGTHS.contains(&rows) && LENGTHS.contains(&marks) {
            self.0.cell(SIZES, &format!("{way}, {rows} rows, {marks} marks"));
        }
    }

    pub fn end(&self, tally: &mut Tally) {
        self.0.end(tally, "kinds of calls over a shared list");
    }
}

fn expect_sizes(counts: &mut Counts) {
    for marks in LENGTHS {
        counts.expect_cell(SIZES, format!("start, {marks} marks"));
        for (way, rows) in each_two(&HEARINGS, &LENGTHS) {
            counts.expect_cell(SIZES, format!("{way}, {rows} rows, {marks} marks"));
        }
    }
    for (rack, marks) in each_two(&[0, 1], &LENGTHS[1..]) {
        counts.expect_cell(SERVED, format!("start, rack {rack}, {marks} marks"));
        for (way, rows) in each_two(&HEARINGS, &LENGTHS[1..]) {
            counts.expect_cell(SERVED, format!("{way}, rack {rack}, {rows} rows, {marks} marks"));
        }
    }
    for rack in RACKS {
        for call in HEARINGS.iter().chain(&["start"]) {
            counts.expect_cell(NUMBERS, format!("{call}, rack {rack}"));
        }
    }
}

fn moments() -> Vec<String> {
    let slots = (0..=LAST_SLOT).map(|slot| format!("slot {slot}"));
    let endings = ["Complete", "Twins", "Full", "Overrun"].map(|ending| format!("after {ending}"));
    slots.chain(endings).collect()
}

fn each_two<One: Copy, Other: Copy>(ones: &[One], others: &[Other]) -> Vec<(One, Other)> {
    ones.iter().flat_map(|&one| others.iter().map(move |&other| (one, other))).collect()
}

fn way(heard: &Heard) -> &'static str {
    match heard {
        Heard::Silence => HEARINGS[0],
        Heard::Clash => HEARINGS[1],
        Heard::Bytes(_) => HEARINGS[2],
    }
}

fn is_wrong(mark: &u8) -> bool {
    ![FREE, 0, 1].contains(mark)
}
