//! The kinds of calls that must be refused.

use super::{each_two, Kinds};
use crate::groups::counts::Counts;
use crate::groups::shared::reasons::{Call, Reason, REASONS};
use crate::groups::walks::refusals::HEARINGS;

const SETS: &str = "each set of refusals, in each hearing";
const ALONE: &str = "each cause alone, in each hearing";
const PAIRS: &str = "each two causes in a hearing";
const START_PAIRS: &str = "each two causes in a start";

pub fn expect(counts: &mut Counts) {
    for some in 1..1 << REASONS.len() {
        let reasons = REASONS.iter().enumerate().filter(|(place, _)| some >> place & 1 == 1);
        let reasons: Vec<Reason> = reasons.map(|(_, reason)| *reason).collect();
        for way in HEARINGS {
            counts.expect_cell(SETS, set(&reasons, way));
        }
        if let [one, other] = reasons[..] {
            for (one, other) in each_two(&one.causes(), &other.causes()) {
                counts.expect_cell(PAIRS, pair(one, other));
            }
        }
    }
    for reason in REASONS {
        for cause in reason.causes() {
            counts.expect(format!("hearing refused {}, {cause}", reason.name()));
            for way in HEARINGS {
                counts.expect_cell(ALONE, format!("{cause}, {way}"));
            }
        }
    }
    let [racks, lists] = [Reason::Rack, Reason::List].map(|reason| {
        for cause in reason.causes_of_start() {
            counts.expect(format!("start refused {}, {cause}", reason.name()));
        }
        reason.causes_of_start()
    });
    for (one, other) in each_two(&racks, &lists) {
        counts.expect_cell(START_PAIRS, pair(one, other));
    }
}

impl Kinds {
    pub fn refused_start(&mut self, call: &Call) {
        match call.causes[..] {
            [(reason, cause)] => {
                self.0.row(&format!("start refused {}, {cause}", reason.name()));
            }
            [(_, one), (_, other)] => self.0.cell(START_PAIRS, &pair(one, other)),
            _ => unreachable!(),
        }
        self.number("start", call.rack);
        self.start_of(call.arm.marks.len());
    }

    pub fn refused_hearing(&mut self, call: &Call, way: &str) {
        let reasons: Vec<Reason> = call.causes.iter().map(|(reason, _)| *reason).collect();
        self.0.cell(SETS, &set(&reasons, way));
        match call.causes[..] {
            [(reason, cause)] => {
                self.0.row(&format!("hearing refused {}, {cause}", reason.name()));
                self.0.cell(ALONE, &format!("{cause}, {way}"));
            }
            [(_, one), (_, other)] => self.0.cell(PAIRS, &pair(one, other)),
            _ => {}
        }
        self.number(way, call.rack);
        self.hearing_of(way, &call.arm);
    }
}

fn set(reasons: &[Reason], way: &str) -> String {
    let names: Vec<String> = reasons.iter().map(|reason| reason.name()).collect();
    format!("{}, {way}", names.join(" and "))
}

fn pair(one: &str, other: &str) -> String {
    format!("{one} and {other}")
}
