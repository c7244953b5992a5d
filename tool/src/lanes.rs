//! What each thread of a recording does: its blocks and the locks it holds, found in one walk.

use crate::rows::Rows;
use gambozuri::{Frame, Operation, THREADS};
use std::collections::BTreeMap;

/// A block, nested or not, from its begin to its end; none where it is open at the end.
#[derive(Clone, Copy)]
pub struct Block {
    pub begin: usize,
    /// The number of the thread's blocks that are open before it.
    pub depth: usize,
    pub end: Option<usize>,
}

/// A time for which a lock is held: to the release that frees it; none where it is held at the end.
#[derive(Clone, Copy)]
pub struct Hold {
    pub from: usize,
    pub to: Option<usize>,
}

/// What a thread does, by places in rising order.
#[derive(Clone, Default)]
struct Thread {
    frames: Vec<usize>,
    blocks: Vec<Block>,
    /// The numbers of the blocks that are open.
    open: Vec<usize>,
    /// The times for which each lock is held, and how often it is held now.
    locks: BTreeMap<u8, (Vec<Hold>, usize)>,
}

/// The frames of a recording and what its threads do.
pub struct Recording {
    frames: Vec<Option<Frame>>,
    threads: Vec<Thread>,
    /// The end of the outermost block that begins at each place.
    ends: Vec<Option<usize>>,
}

/// What is drawn of a thread.
pub struct Lane {
    pub frames: Vec<usize>,
    pub holds: Vec<(u8, Vec<Hold>)>,
    pub blocks: Vec<Block>,
    /// The number of nested blocks.
    pub depth: usize,
}

impl Thread {
    fn step(&mut self, place: usize, operation: Operation) {
        self.frames.push(place);
        match operation {
            Operation::Begin => {
                let depth = self.open.len();
                self.open.push(self.blocks.len());
                self.blocks.push(Block {
                    begin: place,
                    depth,
                    end: None,
                });
            }
            Operation::End => {
                let number = self.open.pop();
                if let Some(block) = number.and_then(|number| self.blocks.get_mut(number)) {
                    block.end = Some(place);
                }
            }
            Operation::Acquire(lock) => {
                let (holds, count) = self.locks.entry(lock).or_default();
                if *count == 0 {
                    holds.push(Hold {
                        from: place,
                        to: None,
                    });
                }
                *count += 1;
            }
            Operation::Release(lock) => {
                let (holds, count) = self.locks.entry(lock).or_default();
                *count = count.saturating_sub(1);
                if let Some(hold) = holds.last_mut().filter(|_| *count == 0) {
                    hold.to = Some(place);
                }
            }
            Operation::Read(_) | Operation::Write(_) => {}
        }
    }

    /// What is drawn of the thread, if it has a frame in the rows.
    fn lane(&self, rows: &Rows) -> Option<Lane> {
        let frames: Vec<usize> = self
            .frames
            .iter()
            .copied()
            .filter(|&p| rows.has(p))
            .collect();
        let drawn = |hold: &&Hold| rows.has_part(hold.from, hold.to);
        let holds = self.locks.iter().map(|(&lock, (holds, _))| {
            let holds: Vec<Hold> = holds.iter().filter(drawn).copied().collect();
            (lock, holds)
        });
        let drawn = |block: &&Block| rows.has_part(block.begin, block.end);
        let blocks: Vec<Block> = self.blocks.iter().filter(drawn).copied().collect();
        let depth = blocks
            .iter()
            .map(|block| block.depth + 1)
            .max()
            .unwrap_or(0);
        (!frames.is_empty()).then(|| Lane {
            frames,
            holds: holds.filter(|(_, holds)| !holds.is_empty()).collect(),
            blocks,
            depth,
        })
    }
}

impl Recording {
    pub fn new(words: &[u32]) -> Recording {
        let frames: Vec<Option<Frame>> = words.iter().map(|&word| Frame::of_word(word)).collect();
        let mut threads = vec![Thread::default(); THREADS];
        for (place, frame) in frames.iter().enumerate() {
            let Some(frame) = frame else { continue };
            if let Some(thread) = threads.get_mut(usize::from(frame.thread)) {
                thread.step(place, frame.operation);
            }
        }
        let mut ends = vec![None; words.len()];
        for block in threads.iter().flat_map(|thread| &thread.blocks) {
            if let Some(end) = ends.get_mut(block.begin).filter(|_| block.depth == 0) {
                *end = block.end;
            }
        }
        Recording {
            frames,
            threads,
            ends,
        }
    }

    pub fn frame(&self, place: usize) -> Option<Frame> {
        self.frames.get(place).copied().flatten()
    }

    /// The end of the outermost block that begins at a place.
    pub fn end_of(&self, begin: usize) -> Option<usize> {
        self.ends.get(begin).copied().flatten()
    }

    /// The threads that have a frame in the rows, in rising order.
    pub fn lanes(&self, rows: &Rows) -> Vec<(usize, Lane)> {
        let lanes = self.threads.iter().map(|thread| thread.lane(rows));
        let drawn = |(number, lane): (usize, Option<Lane>)| Some((number, lane?));
        lanes.enumerate().filter_map(drawn).collect()
    }
}
