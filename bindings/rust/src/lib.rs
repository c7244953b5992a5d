//! The trace check: whether the atomic blocks of a recorded run could have run one after another.
//!
//! A recording is a text, a line for each frame: eight digits 0-9 A-F and an LF. Functions below
//! take it as words, which [`read`] makes of the text. Guards are inferred or declared, as the
//! [`Judgement`] says. No function allocates, keeps state or fails other than by a [`Refused`].
//!
//! ```
//! use gambozuri::{read, verdict, Judgement, Kind, Verdict, MAX_FRAMES};
//!
//! let text = b"05010000\n01010000\n02010000\n01010000\n02010000\n06010000\n";
//! let mut words = [0; MAX_FRAMES];
//! let count = read(text, &mut words)?;
//! match verdict(Judgement::Inferred, &words[..count])? {
//!     Verdict::Reducible { frames } => panic!("{frames} frames, none of them goes wrong"),
//!     Verdict::Violated(violation) => {
//!         assert_eq!((violation.kind, violation.frame), (Kind::AcquireAfterCommit, 3));
//!     }
//! }
//! # Ok::<(), gambozuri::Refused>(())
//! ```

#![cfg_attr(not(test), no_std)]
#![deny(missing_docs)]
#![deny(unsafe_code)]
#![deny(unsafe_op_in_unsafe_fn)]

mod answer;
mod frame;
#[allow(unsafe_code)]
pub mod raw;

use answer::{count, reply};
pub use answer::{Fields, Kind, Refusal, Refused, Verdict, Violation};
pub use frame::{Frame, Operation};

/// Frames of a recording, at most.
pub const MAX_FRAMES: usize = 4096;
/// Threads, numbered from 0.
pub const THREADS: usize = 32;
/// Locks, numbered from 0.
pub const LOCKS: usize = 64;
/// Variables, numbered from 0.
pub const VARIABLES: usize = 1024;
/// Open blocks of one thread, nested, at most.
pub const MAX_NESTING_DEPTH: usize = 15;
/// Holds of one lock by its owner, at most.
pub const MAX_HOLDS: usize = 15;
/// Bytes of a verdict line, its LF counted.
pub const LINE_LENGTH: usize = 33;
/// Bytes of a line of a recording's text or of a guard list, its LF counted.
pub const TEXT_LINE_LENGTH: usize = 9;

/// Bytes that a function says, at most.
pub const SAY_LENGTH: usize = 4096;

/// How the guards of variables are known.
#[derive(Clone, Copy, Debug, PartialEq, Eq)]
#[non_exhaustive]
pub enum Judgement<'a> {
    /// Guards are inferred from the recording.
    Inferred,
    /// Guards are those of this guard list; a variable that it does not name is unprotected.
    Declared(&'a [u8]),
}

/// One of two recordings that are compared.
#[derive(Clone, Copy, Debug, PartialEq, Eq, Hash)]
pub enum Side {
    /// The left recording.
    Left,
    /// The right recording.
    Right,
}

/// What a refusal speaks of.
#[derive(Clone, Copy, Debug, PartialEq, Eq, Hash)]
pub enum Source {
    /// The recording.
    Recording,
    /// The guard list.
    GuardList,
    /// The left recording.
    Left,
    /// The right recording.
    Right,
    /// The text: a recording's or a guard list.
    Text,
}

/// The verdict line of a recording's text, guards inferred. A refusal is a line too.
pub fn check(text: &[u8]) -> [u8; LINE_LENGTH] {
    let mut line = [0; LINE_LENGTH];
    raw::trace_check(text, &mut line);
    line
}

/// Reads a recording's text into words and replies how many. Frames are not looked at.
pub fn read(text: &[u8], words: &mut [u32]) -> Result<usize, Refused> {
    count(raw::trace_read(text, words))
}

/// Checks a guard list and replies how many lines it has. A line is a variable and a lock, four
/// digits each, and an LF.
pub fn check_guards(list: &[u8]) -> Result<usize, Refused> {
    count(raw::trace_guards(list))
}

/// The verdict line. A refusal is a line too. Inferred guards take 8 KiB of stack here for the
/// candidate sets.
pub fn verdict_line(judgement: Judgement, words: &[u32]) -> [u8; LINE_LENGTH] {
    let mut line = [0; LINE_LENGTH];
    match judgement {
        Judgement::Inferred => raw::trace_inferred(words, &mut [0; VARIABLES], &mut line),
        Judgement::Declared(list) => raw::trace_declared(list, words, &mut line),
    };
    line
}

/// The verdict.
pub fn verdict(judgement: Judgement, words: &[u32]) -> Result<Verdict, Refused> {
    Fields::read(&verdict_line(judgement, words))?.verdict()
}

/// The verdict with inferred guards, and each variable's candidate set: after the last frame, or as
/// before the frame that goes wrong. Lock n is bit n. A refusal leaves the sets as they were.
pub fn candidate_sets(words: &[u32], sets: &mut [u64; VARIABLES]) -> Result<Verdict, Refused> {
    let mut line = [0; LINE_LENGTH];
    raw::trace_inferred(words, sets, &mut line);
    Fields::read(&line)?.verdict()
}

/// Whether exchanges of independent neighbours turn the left recording into the right one. The left
/// is checked whole before the right.
pub fn equal(left: &[u32], right: &[u32]) -> Result<bool, (Side, Refused)> {
    let reply = raw::trace_equal(left, right);
    let side = match reply >> 40 & 1 {
        0 => Side::Left,
        _ => Side::Right,
    };
    match count(reply) {
        Ok(answer) => Ok(answer == 1),
        Err(refused) => Err((side, refused)),
    }
}

/// Writes the serial order into `out` and replies the number of frames.
pub fn serial(judgement: Judgement, words: &[u32], out: &mut [u32]) -> Result<usize, Refused> {
    count(match judgement {
        Judgement::Inferred => raw::trace_serial_inferred(words, out),
        Judgement::Declared(list) => raw::trace_serial_declared(list, words, out),
    })
}

/// Writes how far each frame moves to its place in the serial order, and replies the number of
/// frames: the frame at place p stands at place p + moves\[p\] of the order.
pub fn moves(judgement: Judgement, words: &[u32], moves: &mut [i32]) -> Result<usize, Refused> {
    count(match judgement {
        Judgement::Inferred => raw::trace_moves_inferred(words, moves),
        Judgement::Declared(list) => raw::trace_moves_declared(list, words, moves),
    })
}

/// Writes where each unit commits, and replies the number of frames: commits\[p\] becomes c + 1
/// where a unit starts at p and commits at c. Other entries keep their contents.
pub fn commits(judgement: Judgement, words: &[u32], commits: &mut [u32]) -> Result<usize, Refused> {
    count(match judgement {
        Judgement::Inferred => raw::trace_commits_inferred(words, commits),
        Judgement::Declared(list) => raw::trace_commits_declared(list, words, commits),
    })
}

/// Writes a recording as text, from `place` on, and replies the number of bytes, 9 for each frame.
pub fn write(words: &[u32], text: &mut [u8], place: usize) -> Result<usize, Refused> {
    count(raw::trace_write(words, text, place))
}

/// Says what a verdict line tells; `words` are those of the recording that the line is of. Writes
/// as much as `out` has room for and replies the number of bytes of the whole.
pub fn say_verdict(line: &[u8], words: &[u32], out: &mut [u8]) -> usize {
    raw::trace_say_verdict(line, words, out)
}

/// Says a refusal. `text` is what was refused as text, `words` the recording's, or empty. Writes as
/// much as `out` has room for and replies the number of bytes of the whole.
pub fn say_refusal(
    refused: Refused,
    source: Source,
    text: &[u8],
    words: &[u32],
    out: &mut [u8],
) -> usize {
    raw::trace_say_refusal(reply(refused), source as u32, text, words, out)
}

/// Says what a kept verdict line tells by itself. Writes as much as `out` has room for and replies
/// the number of bytes of the whole.
pub fn say_line(line: &[u8], out: &mut [u8]) -> usize {
    raw::trace_say_line(line, out)
}

/// Says the name of a kind; nothing where it has none. Writes as much as `out` has room for and
/// replies the number of bytes of the whole.
pub fn say_kind(kind: Kind, out: &mut [u8]) -> usize {
    raw::trace_say_kind(kind.number(), out)
}

/// Says the name of a refusal; nothing where it has none. Writes as much as `out` has room for and
/// replies the number of bytes of the whole.
pub fn say_refusal_name(refusal: Refusal, out: &mut [u8]) -> usize {
    raw::trace_say_refusal_name(refusal.number(), out)
}

#[cfg(test)]
mod tests;
