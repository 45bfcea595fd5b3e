//! Calls that are refused, for each cause alone and for several at once.

use super::arm::Arm;
use super::kinds::Kinds;
use super::reasons::{break_call, Call, Reason, REASONS};
use crate::calls::Calls;
use crate::groups::walks::records::family;
use crate::groups::walks::refusals::HEARINGS;
use crate::groups::walks::replies::{fitting, reply};
use crate::random::Random;
use crate::reference::walk::record::at;
use crate::reference::walk::Heard;
use crate::reference::Refusal;

/// One reason, or two, or any.
fn reasons(random: &mut Random, from: &[Reason]) -> Vec<Reason> {
    let all = (1 << from.len()) - 1;
    let [one, other] = [(); 2].map(|()| 1 << random.below(from.len()));
    let set = match random.below(5) {
        0 | 1 => one,
        2 | 3 => one | other,
        _ => 1 + random.below(all),
    };
    from.iter()
        .enumerate()
        .filter(|(place, _)| set >> place & 1 == 1)
        .map(|(_, each)| *each)
        .collect()
}

pub fn hearing(calls: &mut Calls, random: &mut Random, kinds: &mut Kinds, arm: &Arm, rack: usize) {
    let arm = if random.once_in(2) { Arm::accepted(random) } else { arm.clone() };
    let mut call = Call { rack: rack as u32, arm, causes: Vec::new() };
    call.arm.records[rack][at::ENDING] = 0;
    let way = random.pick(&HEARINGS);
    let heard = match way {
        "silence" => Heard::Silence,
        "clash" => Heard::Clash,
        _ => {
            let uid = fitting(random, &call.arm.walk(rack));
            Heard::Bytes(reply(random, uid))
        }
    };
    let reasons = reasons(random, &REASONS);
    // Marks are laid anew before some are taken away.
    for &reason in reasons.iter().rev() {
        let cause = random.pick(&reason.causes());
        call.causes.insert(0, (reason, cause));
        break_call(random, &mut call, rack, reason, cause);
    }
    let Arm { records, rows, marks, .. } = &mut call.arm;
    let outcome = calls.shared_hear(&heard, call.rack, &mut records[rack], rows, marks);
    if is_first(calls, &call, outcome) {
        kinds.refused_hearing(&call, way);
    }
}

pub fn starting(calls: &mut Calls, random: &mut Random, kinds: &mut Kinds, arm: &Arm, rack: usize) {
    let arm = if random.once_in(2) { Arm::before_starts(random) } else { arm.clone() };
    let mut call = Call { rack: rack as u32, arm, causes: Vec::new() };
    for reason in reasons(random, &[Reason::Rack, Reason::List]) {
        let cause = random.pick(&reason.causes_of_start());
        call.causes.push((reason, cause));
        break_call(random, &mut call, rack, reason, cause);
    }
    let family = family(random);
    let Arm { records, marks, .. } = &mut call.arm;
    let outcome = calls.shared_start(call.rack, family, &mut records[rack], marks);
    if is_first(calls, &call, outcome) {
        kinds.refused_start(&call);
    }
}

/// Whether the call is refused for the first of its reasons.
fn is_first(calls: &mut Calls, call: &Call, outcome: Result<(), Refusal>) -> bool {
    let first = call.causes[0].0.number();
    let right = outcome.is_err_and(|refusal| refusal as u8 == first);
    calls
        .tally
        .count(right, || format!("{:?}, where the reference says: {outcome:?}", call.causes));
    right
}
