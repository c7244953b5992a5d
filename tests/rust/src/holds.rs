//! What recordings show of locks that their holders take again, to be counted.

use crate::{check_recording, Action, Frame, Refusal, MOST_HOLDS};
use std::collections::BTreeMap;

/// All must be met.
pub const SHOWN: [&str; 8] = [
    "lock held 15 times",
    "access under a lock held more than once",
    "reducible, an inner acquire after a release that commits",
    "reducible, an inner release and later in the block an acquire of a free lock",
    "reducible, a lock held before the block is taken and let go inside",
    "refusal 7 of a lock held more than once",
    "refusal 8 of a lock let go as often as it was taken",
    "refusal 20",
];

/// An inner acquire and its release stand before this place.
pub fn has_inner_pair(words: &[u32], before: usize) -> bool {
    let inner = |frame: &Frame| matches!(frame.action, Action::InnerRelease(_));
    let frames = check_recording(&words[..before.min(words.len())]);
    frames.is_ok_and(|frames| frames.iter().any(inner))
}

#[derive(Default)]
struct Lock {
    owner: u8,
    count: u32,
    /// The count where the owner's block began.
    at_begin: u32,
    /// It has been held more than once since it was free.
    again: bool,
}

#[derive(Default)]
struct Block {
    depth: u32,
    inner_release: bool,
    freed: bool,
}

/// As in `SHOWN`, of a recording that is sound, and known as reducible or not, or of one that is
/// refused by 7, 8 or 20.
pub fn shown(words: &[u32], reply: Result<bool, Refusal>) -> [bool; SHOWN.len()] {
    let sound = match reply {
        Ok(_) => words,
        Err(refusal) => &words[..refusal.place],
    };
    let reducible = reply == Ok(true);
    let mut locks: BTreeMap<u16, Lock> = BTreeMap::new();
    let mut blocks: BTreeMap<u8, Block> = BTreeMap::new();
    let mut shown = [false; SHOWN.len()];
    for Frame { thread, action } in check_recording(sound).unwrap_or_default() {
        let block = blocks.entry(thread).or_default();
        let inside = block.depth > 0;
        match action {
            Action::Acquire(number) => {
                let lock = locks.entry(number).or_default();
                *lock = Lock::default();
                (lock.owner, lock.count) = (thread, 1);
                shown[3] |= reducible && block.inner_release;
            }
            Action::Release(number) => {
                locks.entry(number).or_default().count = 0;
                block.freed |= inside;
            }
            Action::InnerAcquire(number) => {
                let lock = locks.entry(number).or_default();
                (lock.count, lock.again) = (lock.count + 1, true);
                shown[0] |= lock.count == MOST_HOLDS;
                shown[2] |= reducible && block.freed;
            }
            Action::InnerRelease(number) => {
                let lock = locks.entry(number).or_default();
                lock.count -= 1;
                block.inner_release |= inside;
                let before = lock.at_begin > 0 && lock.count >= lock.at_begin;
                shown[4] |= reducible && inside && before;
            }
            Action::Read(_) | Action::Write(_) => {
                let more = |lock: &Lock| lock.owner == thread && lock.count > 1;
                shown[1] |= locks.values().any(more);
            }
            Action::Begin => {
                block.depth += 1;
                for lock in locks.values_mut().filter(|lock| lock.owner == thread) {
                    lock.at_begin = if inside { lock.at_begin } else { lock.count };
                }
            }
            Action::End => {
                block.depth -= 1;
                if block.depth == 0 {
                    *block = Block::default();
                }
            }
        }
    }
    if let Err(Refusal { number, place }) = reply {
        let lock = locks.entry(words[place] as u16).or_default();
        shown = [false; SHOWN.len()];
        shown[5] = number == 7 && lock.count > 1;
        shown[6] = number == 8 && lock.count == 0 && lock.again;
        shown[7] = number == 20;
    }
    shown
}
