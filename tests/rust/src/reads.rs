//! What pairs of recordings show of reads that pass each other and of writes that they do not pass,
//! to be counted.

use crate::case::LONG;
use crate::{check_recording, projections, Accesses};
use std::collections::BTreeMap;

/// All must be met.
pub const SHOWN: [&str; 4] = [
    "equal only by exchanging reads",
    "  of recordings near the limit of the length",
    "not equal, as one read has passed a write",
    "  of recordings near the limit of the length",
];

/// As in `SHOWN`, of two recordings that are known as equal or not.
pub fn shown(left: &[u32], right: &[u32], equal: bool) -> [bool; SHOWN.len()] {
    let long = left.len() >= LONG;
    let exchanged = equal && accesses(left) != accesses(right);
    let passed = !equal && left.len() == right.len() && read_has_passed(left, right);
    [exchanged, exchanged && long, passed, passed && long]
}

/// The accesses of each variable in recorded order. Where these differ, equal recordings would not
/// be equal if reads of one variable were never independent.
fn accesses(words: &[u32]) -> BTreeMap<u16, Vec<u32>> {
    let mut accesses: BTreeMap<u16, Vec<u32>> = BTreeMap::new();
    for &word in words.iter().filter(|&word| matches!(word >> 24, 3 | 4)) {
        accesses.entry(word as u16).or_default().push(word);
    }
    accesses
}

/// All that differs is the number of writes of its variable before one read. These writes are by
/// other threads, as the frames of each thread agree.
fn read_has_passed(left: &[u32], right: &[u32]) -> bool {
    let of = |words: &[u32]| Some(projections(words, &check_recording(words).ok()?));
    let (Some(left), Some(right)) = (of(left), of(right)) else {
        return false;
    };
    if left.threads != right.threads || left.locks != right.locks {
        return false;
    }
    // The same frames have the same variables.
    let each = || left.variables.values().zip(right.variables.values());
    let reads: usize = each().map(|(left, right)| moved(left, right)).sum();
    reads == 1 && each().all(|(left, right)| left.writes == right.writes)
}

/// How many reads of the left stand behind another number of writes on the right.
fn moved(left: &Accesses, right: &Accesses) -> usize {
    let there = |read| right.reads.get(read).copied().unwrap_or(0);
    let moved = |(read, count): (_, &usize)| count.saturating_sub(there(read));
    left.reads.iter().map(moved).sum()
}
