//! Frames taken apart from words and put together.

use crate::{LOCKS, THREADS, VARIABLES};

/// What a frame does.
#[derive(Clone, Copy, Debug, PartialEq, Eq, Hash)]
pub enum Operation {
    /// Acquire of a lock.
    Acquire(u8),
    /// Release of a lock.
    Release(u8),
    /// Read of a variable.
    Read(u16),
    /// Write of a variable.
    Write(u16),
    /// Begin of an atomic block.
    Begin,
    /// End of an atomic block.
    End,
}

/// One operation of one thread.
#[derive(Clone, Copy, Debug, PartialEq, Eq, Hash)]
pub struct Frame {
    /// The thread, 0 to 31.
    pub thread: u8,
    /// What it does.
    pub operation: Operation,
}

impl Frame {
    /// The frame of a word, or none where the word's operation, thread or object is out of range.
    pub fn of_word(word: u32) -> Option<Frame> {
        let [code, thread, high, low] = word.to_be_bytes();
        let object = u16::from_be_bytes([high, low]);
        let lock = (usize::from(object) < LOCKS).then_some(low);
        let variable = (usize::from(object) < VARIABLES).then_some(object);
        let operation = match code {
            1 => Operation::Acquire(lock?),
            2 => Operation::Release(lock?),
            3 => Operation::Read(variable?),
            4 => Operation::Write(variable?),
            5 if object == 0 => Operation::Begin,
            6 if object == 0 => Operation::End,
            _ => return None,
        };
        (usize::from(thread) < THREADS).then_some(Frame { thread, operation })
    }

    /// The word of a frame. No range is tested: the library refuses a word that is out of range.
    pub fn word(self) -> u32 {
        let (code, object) = match self.operation {
            Operation::Acquire(lock) => (1, u16::from(lock)),
            Operation::Release(lock) => (2, u16::from(lock)),
            Operation::Read(variable) => (3, variable),
            Operation::Write(variable) => (4, variable),
            Operation::Begin => (5, 0),
            Operation::End => (6, 0),
        };
        let [high, low] = object.to_be_bytes();
        u32::from_be_bytes([code, self.thread, high, low])
    }
}
