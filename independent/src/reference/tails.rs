//! What a field's walk must come to, by sets and counts of UIDs alone.

use std::collections::{BTreeMap, BTreeSet};

use super::walk::{LEVELS, PLACES};

/// A UID, written out.
fn written(uid: u64) -> String {
    format!("{uid:016X}")
}

/// The lowest digits of a UID, written out.
fn tail(uid: u64, digits: usize) -> String {
    let written = written(uid);
    written[written.len() - digits..].to_string()
}

/// How many tails of 1 to 13 digits two or more of the UIDs share.
pub fn shared_tails(uids: &[u64]) -> usize {
    let mut having: BTreeMap<String, usize> = BTreeMap::new();
    for &uid in uids {
        for digits in 1..LEVELS {
            *having.entry(tail(uid, digits)).or_default() += 1;
        }
    }
    having.values().filter(|&&count| count >= 2).count()
}

/// What demand 3 asks of a UID that answers.
pub fn begins_with_e0(uid: u64) -> bool {
    written(uid).starts_with("E0")
}

pub fn all_begin_with_e0(uids: &[u64]) -> bool {
    uids.iter().all(|&uid| begins_with_e0(uid))
}

pub fn all_differ(uids: &[u64]) -> bool {
    uids.iter().collect::<BTreeSet<_>>().len() == uids.len()
}

/// Whether the walk of a field in which these answer ends complete.
pub fn is_complete(uids: &[u64]) -> bool {
    uids.len() <= PLACES && can_be_told(uids)
}

/// Whether nothing stands in the way of a walk over these but their number: two
/// alike do, and so does one that doesn't begin with E0.
pub fn can_be_told(uids: &[u64]) -> bool {
    all_differ(uids) && all_begin_with_e0(uids)
}

pub fn rounds(uids: &[u64]) -> usize {
    1 + shared_tails(uids)
}
