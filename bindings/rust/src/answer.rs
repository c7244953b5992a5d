//! What the library answers: refusals, kinds, verdicts, and the fields of a verdict line.

use crate::raw;
use core::fmt;

macro_rules! refusals {
    ($($(#[$doc:meta])* $name:ident = $number:literal,)*) => {
        /// Why a call refused. The numbers are those of the headers.
        #[derive(Clone, Copy, Debug, PartialEq, Eq, Hash)]
        #[non_exhaustive]
        pub enum Refusal {
            $($(#[$doc])* $name,)*
            /// A number that has no name here.
            Other(u8),
        }

        impl Refusal {
            /// The refusal of a number.
            pub fn of_number(number: u8) -> Refusal {
                match number {
                    $($number => Refusal::$name,)*
                    other => Refusal::Other(other),
                }
            }

            /// The number of a refusal.
            pub fn number(self) -> u8 {
                match self {
                    $(Refusal::$name => $number,)*
                    Refusal::Other(number) => number,
                }
            }
        }
    };
}

refusals! {
    /// A line of a text or of a guard list is not eight digits 0-9 A-F and an LF.
    MalformedLine = 1,
    /// A byte stands after the 4,096th line, or there are more than 4,096 words.
    TooManyFrames = 2,
    /// The word buffer has fewer words than the text has lines.
    WordsTooShort = 3,
    /// The operation is not 1 to 6.
    OperationOutOfRange = 4,
    /// The thread is above 31.
    ThreadOutOfRange = 5,
    /// The object is a lock above 63, a variable above 1023, or not 0 at begin or end.
    ObjectOutOfRange = 6,
    /// Acquire of a lock that another thread holds.
    LockHeldByOther = 7,
    /// Release of a lock that this thread does not hold.
    LockNotHeld = 8,
    /// Begin inside 15 open blocks of this thread.
    NestingTooDeep = 9,
    /// End with no open block of this thread.
    NoOpenBlock = 10,
    /// Guard list: variable above 1023 or lock above 63.
    GuardOutOfRange = 11,
    /// Guard list: variable already named.
    VariableAlreadyNamed = 12,
    /// Serial order and displacements: not reducible.
    NotReducible = 13,
    /// Serial order and displacements: a block still open at the end.
    BlockStillOpen = 14,
    /// Serial order: the output is shorter than the recording.
    OutputTooShort = 15,
    /// The table of candidate sets has fewer than 1,024 entries.
    SetsTooShort = 16,
    /// The line buffer is shorter than 33 bytes.
    LineTooShort = 17,
    /// Not a verdict line, or a kind that no verdict line has.
    NotAVerdictLine = 18,
    /// The text has too few bytes from the given place on.
    TextTooShort = 19,
    /// Acquire of a lock that this thread holds 15 times already.
    TooManyHolds = 20,
    /// Displacements: fewer numbers than frames.
    MovesTooShort = 21,
}

impl fmt::Display for Refusal {
    /// The library's name of the refusal, or its number.
    fn fmt(&self, formatter: &mut fmt::Formatter<'_>) -> fmt::Result {
        let mut name = [0; 64];
        let length = crate::say_refusal_name(*self, &mut name);
        match name.get(..length).map(core::str::from_utf8) {
            Some(Ok(name)) if length > 0 => formatter.write_str(name),
            _ => write!(formatter, "refusal {}", self.number()),
        }
    }
}

/// A refusal and its place, counted from 0: a line or a frame, or how much is asked for.
#[derive(Clone, Copy, Debug, PartialEq, Eq, Hash)]
pub struct Refused {
    /// Why.
    pub refusal: Refusal,
    /// Where.
    pub place: u32,
}

impl fmt::Display for Refused {
    fn fmt(&self, formatter: &mut fmt::Formatter<'_>) -> fmt::Result {
        write!(formatter, "{} [{}]", self.refusal, self.place)
    }
}

impl core::error::Error for Refused {}

/// Takes a reply apart: the count answered, or the refusal.
pub(crate) fn count(reply: u64) -> Result<usize, Refused> {
    let place = (reply & 0xFFFF_FFFF) as u32;
    match reply >> 32 {
        0 => Ok(place as usize),
        number => Err(Refused {
            refusal: Refusal::of_number((number & 0xFF) as u8),
            place,
        }),
    }
}

/// The reply of a refusal.
pub(crate) fn reply(refused: Refused) -> u64 {
    u64::from(refused.refusal.number()) << 32 | u64::from(refused.place)
}

/// The kind of a verdict line, its first field.
#[derive(Clone, Copy, Debug, PartialEq, Eq, Hash)]
#[non_exhaustive]
pub enum Kind {
    /// No frame goes wrong.
    Reducible,
    /// An access without the variable's declared guard.
    GuardNotHeld,
    /// An access of an unprotected variable after its block's commit.
    UnprotectedAccessAfterCommit,
    /// An acquire of a free lock after its block's commit.
    AcquireAfterCommit,
    /// An access after which no lock may guard the variable.
    CandidateSetEmptied,
    /// The recording or the guard list is refused.
    Refused(Refusal),
    /// A number that has no name here.
    Other(u8),
}

impl Kind {
    /// The kind of a number.
    pub fn of_number(number: u8) -> Kind {
        match number {
            0x00 => Kind::Reducible,
            0x01 => Kind::GuardNotHeld,
            0x02 => Kind::UnprotectedAccessAfterCommit,
            0x03 => Kind::AcquireAfterCommit,
            0x04 => Kind::CandidateSetEmptied,
            0x81..=0xFF => Kind::Refused(Refusal::of_number(number & 0x7F)),
            other => Kind::Other(other),
        }
    }

    /// The number of a kind.
    pub fn number(self) -> u8 {
        match self {
            Kind::Reducible => 0x00,
            Kind::GuardNotHeld => 0x01,
            Kind::UnprotectedAccessAfterCommit => 0x02,
            Kind::AcquireAfterCommit => 0x03,
            Kind::CandidateSetEmptied => 0x04,
            Kind::Refused(refusal) => refusal.number().wrapping_add(0x80),
            Kind::Other(number) => number,
        }
    }
}

/// The first frame that goes wrong.
#[derive(Clone, Copy, Debug, PartialEq, Eq, Hash)]
pub struct Violation {
    /// What is wrong.
    pub kind: Kind,
    /// The place of the frame.
    pub frame: u16,
    /// Its thread.
    pub thread: u8,
    /// The outermost begin of its block, none outside any block.
    pub begin: Option<u16>,
    /// The frame that committed its block, none before.
    pub commit: Option<u16>,
    /// The locks that the kind speaks of; lock n is bit n.
    pub locks: u64,
}

/// The verdict on a recording.
#[derive(Clone, Copy, Debug, PartialEq, Eq, Hash)]
pub enum Verdict {
    /// No frame goes wrong.
    Reducible {
        /// The number of frames.
        frames: u16,
    },
    /// A frame goes wrong.
    Violated(Violation),
}

/// The fields of a verdict line.
#[derive(Clone, Copy, Debug, PartialEq, Eq, Hash)]
pub struct Fields {
    /// The kind.
    pub kind: Kind,
    /// The frame that goes wrong; the number of frames; the place of a refusal.
    pub frame: u16,
    /// The thread of a violation.
    pub thread: u8,
    /// The outermost begin of its block, if there is one. 65,535 is written as none.
    pub begin: Option<u16>,
    /// The frame that committed its block, if there is one. 65,535 is written as none.
    pub commit: Option<u16>,
    /// The locks; lock n is bit n.
    pub locks: u64,
}

/// An absent begin or commit.
const ABSENT: u16 = 0xFFFF;

impl Fields {
    /// The fields of the verdict line of a refusal.
    pub fn of_refused(refused: Refused) -> Fields {
        Fields {
            kind: Kind::Refused(refused.refusal),
            frame: u16::try_from(refused.place).unwrap_or(u16::MAX),
            thread: 0,
            begin: None,
            commit: None,
            locks: 0,
        }
    }

    /// What the fields tell: a verdict or a refusal.
    pub fn verdict(self) -> Result<Verdict, Refused> {
        match self.kind {
            Kind::Reducible => Ok(Verdict::Reducible { frames: self.frame }),
            Kind::Refused(refusal) => Err(Refused {
                refusal,
                place: u32::from(self.frame),
            }),
            kind => Ok(Verdict::Violated(Violation {
                kind,
                frame: self.frame,
                thread: self.thread,
                begin: self.begin,
                commit: self.commit,
                locks: self.locks,
            })),
        }
    }

    /// Reads a verdict line: 32 digits 0-9 A-F and an LF. Refuses by `NotAVerdictLine`.
    pub fn read(line: &[u8]) -> Result<Fields, Refused> {
        let (mut kind, mut thread, mut locks) = (0, 0, 0);
        let (mut frame, mut begin, mut commit) = (0, 0, 0);
        count(raw::trace_line_read(
            line,
            &mut kind,
            &mut frame,
            &mut thread,
            &mut begin,
            &mut commit,
            &mut locks,
        ))?;
        Ok(Fields {
            kind: Kind::of_number(kind),
            frame,
            thread,
            begin: Some(begin).filter(|&begin| begin != ABSENT),
            commit: Some(commit).filter(|&commit| commit != ABSENT),
            locks,
        })
    }

    /// Writes the verdict line. Refuses by `NotAVerdictLine` a kind that no verdict line has.
    pub fn write(self) -> Result<[u8; crate::LINE_LENGTH], Refused> {
        let mut line = [0; crate::LINE_LENGTH];
        count(raw::trace_line_write(
            self.kind.number(),
            self.frame,
            self.thread,
            self.begin.unwrap_or(ABSENT),
            self.commit.unwrap_or(ABSENT),
            self.locks,
            &mut line,
        ))?;
        Ok(line)
    }
}
