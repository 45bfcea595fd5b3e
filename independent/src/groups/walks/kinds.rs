//! The kinds of calls that must come up.

use super::refusals::{CLAUSES, ENDINGS, HEARINGS, LISTS};
use super::replies::{FALSE, TRUE};
use crate::crowds::{CROWDS, MOST};
use crate::groups::counts::Counts;
use crate::reference::tails::all_begin_with_e0;
use crate::reference::walk::{
    Ending, Heard, Meaning, Sent, Walk, LAST_SLOT, LEVELS, PLACES, ROUNDS,
};
use crate::reference::Refusal;
use crate::tally::Tally;

/// Why bytes are a clash.
pub const CLASHES: [&str; 7] = [
    "told",
    "not 12 bytes",
    "wrong check",
    "wrong flags",
    "other mask",
    "other slot",
    "other first byte",
];

const ENDED: [&str; 14] = [
    "complete by silence",
    "complete by a clean UID",
    "overrun by silence",
    "overrun by a clash",
    "overrun by a clean UID",
    "twins by a clash",
    "twins with 64 listed",
    "twins in slot 15",
    "twins in round 417",
    "twins with clashes that wait",
    "full by a clean UID",
    "full in slot 15",
    "full in round 417",
    "full with clashes that wait",
];

const ASKED: [&str; 9] = [
    "slot mark",
    "slot mark in no room",
    "nothing",
    "nothing in no room",
    "refused 8, room 13",
    "refused 8, no room",
    "request in room 14",
    "request in more room",
    "request of family 00",
];

const FOREIGN: &str = "field with other first bytes";
const SIZES: [&str; 4] = ["no cards", "1 to 64 cards", "65 to 99 cards", "100 cards"];
const SLOTS: &str = "slots heard";
const OPENED: &str = "level opened";
const MEANT: &str = "silence, clash, clean UID at each level";
const REQUESTED: &str = "request at each level, with and without family";
const CAUSES: &str = "each refusal, hearing each thing";

pub struct Kinds(Counts);

impl Kinds {
    pub fn new() -> Kinds {
        let mut counts = Counts::default();
        for name in TRUE.iter().chain(&FALSE) {
            counts.expect(format!("heard {name}"));
        }
        for why in CLASHES {
            counts.expect(format!("clash, {why}"));
        }
        for kind in ENDED {
            counts.expect(format!("ending {kind}"));
        }
        for ending in ["Complete", "Twins", "Full", "Overrun"] {
            counts.expect(format!("from the start to {ending}"));
        }
        for kind in ASKED {
            counts.expect(format!("asked, {kind}"));
        }
        for cause in CLAUSES.iter().chain(&["before 8"]) {
            counts.expect(format!("asked, refused 10, {cause}"));
        }
        for (number, cause) in causes() {
            counts.expect(format!("hearing refused {number}, {cause}"));
            for way in HEARINGS {
                counts.expect_cell(CAUSES, format!("{number}, {cause}, {way}"));
            }
        }
        for (name, _) in CROWDS {
            counts.expect(format!("field, {name}"));
        }
        for size in SIZES {
            counts.expect(format!("field of {size}"));
        }
        counts.expect(FOREIGN);
        counts.expect(SLOTS);
        counts.expect("opened at the own level");
        counts.expect("opened at a level before");
        for level in 0..LEVELS {
            for kind in ["silence", "clash", "clean UID"] {
                counts.expect_cell(MEANT, format!("{kind} at {level}"));
            }
            for family in ["none", "some"] {
                counts.expect_cell(REQUESTED, format!("level {level}, family {family}"));
            }
            if level > 0 {
                counts.expect_cell(OPENED, level.to_string());
            }
        }
        Kinds(counts)
    }

    /// A walk starts in a field of this kind with these cards.
    pub fn field(&mut self, name: &str, uids: &[u64]) {
        self.0.row(&format!("field, {name}"));
        if !all_begin_with_e0(uids) {
            self.0.row(FOREIGN);
        }
        let size = match uids.len() {
            0 => SIZES[0],
            1..=PLACES => SIZES[1],
            MOST => SIZES[3],
            _ => SIZES[2],
        };
        self.0.row(&format!("field of {size}"));
    }

    pub fn asked(&mut self, walk: &Walk, room: usize, outcome: &Result<Sent, Refusal>) {
        let kinds: &[&str] = match (outcome, room) {
            (Ok(Sent::SlotMark), 0) => &["slot mark", "slot mark in no room"],
            (Ok(Sent::SlotMark), _) => &["slot mark"],
            (Ok(Sent::Nothing), 0) => &["nothing", "nothing in no room"],
            (Ok(Sent::Nothing), _) => &["nothing"],
            (Ok(Sent::Request(_)), 14) => &["request in room 14"],
            (Ok(Sent::Request(_)), _) => &["request in more room"],
            (Err(_), 13) => &["refused 8, room 13"],
            (Err(_), 0) => &["refused 8, no room"],
            (Err(_), _) => &[],
        };
        for kind in kinds {
            self.0.row(&format!("asked, {kind}"));
        }
        if let Ok(Sent::Request(_)) = outcome {
            let family = if walk.family > 255 { "none" } else { "some" };
            self.0.cell(REQUESTED, &format!("level {}, family {family}", walk.mask.len()));
            if walk.family == 0 {
                self.0.row("asked, request of family 00");
            }
        }
    }

    pub fn heard(
        &mut self,
        name: &str,
        heard: &Heard,
        walk: &Walk,
        after: &Walk,
        outcome: &Result<(), Refusal>,
    ) {
        if outcome.is_err() {
            return;
        }
        self.0.row(SLOTS);
        self.0.row(&format!("heard {name}"));
        let kind = match walk.meaning(heard) {
            Meaning::Silence => "silence",
            Meaning::Clash(why) => {
                self.0.row(&format!("clash, {why}"));
                "clash"
            }
            Meaning::Clean(_) => "clean UID",
        };
        self.0.cell(MEANT, &format!("{kind} at {}", walk.mask.len()));
        if let Some(ending) = after.ending {
            self.ended(ending, kind, walk);
        } else if after.slot == 0 {
            let own = after.mask.len() > walk.mask.len();
            self.0.row(if own { "opened at the own level" } else { "opened at a level before" });
            self.0.cell(OPENED, &after.mask.len().to_string());
        }
    }

    fn ended(&mut self, ending: Ending, kind: &str, walk: &Walk) {
        let word = format!("{ending:?}").to_lowercase();
        let by = if kind == "silence" { "silence".to_string() } else { format!("a {kind}") };
        self.0.row(&format!("ending {word} by {by}"));
        if matches!(ending, Ending::Complete | Ending::Overrun) {
            return;
        }
        if ending == Ending::Twins && walk.listed == PLACES {
            self.0.row("ending twins with 64 listed");
        }
        if walk.slot == LAST_SLOT {
            self.0.row(&format!("ending {word} in slot 15"));
        }
        if walk.rounds == ROUNDS {
            self.0.row(&format!("ending {word} in round 417"));
        }
        if walk.waiting.iter().any(|slots| !slots.is_empty()) {
            self.0.row(&format!("ending {word} with clashes that wait"));
        }
    }

    pub fn ended_from_start(&mut self, walk: &Walk) {
        let ending = walk.ending.expect("an ended walk");
        self.0.row(&format!("from the start to {ending:?}"));
    }

    pub fn refused_hearing(&mut self, number: u8, cause: &str, way: &str) {
        self.0.row(&format!("hearing refused {number}, {cause}"));
        self.0.cell(CAUSES, &format!("{number}, {cause}, {way}"));
    }

    pub fn refused_asking(&mut self, cause: &str) {
        self.0.row(&format!("asked, refused 10, {cause}"));
    }

    pub fn end(&self, tally: &mut Tally) {
        self.0.end(tally, "kinds of walk calls");
    }
}

fn causes() -> Vec<(u8, &'static str)> {
    let mut causes = vec![(6, "before 5"), (10, "before 6 and 5")];
    causes.extend(CLAUSES.map(|clause| (10, clause)));
    causes.extend(ENDINGS.map(|(ending, _)| (6, ending)));
    causes.extend(LISTS.map(|cause| (5, cause)));
    causes
}
