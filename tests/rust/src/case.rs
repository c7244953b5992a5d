//! A case: one call of the library with its input and lent buffers. Implementations of the calls
//! are compared on the reply and on the whole content of every buffer.

use crate::holds::{has_inner_pair, shown, SHOWN};
use crate::random::Random;
use crate::{reads, Fields, FieldsOut, Refusal, ABSENT, LINE_BYTES, MOST_REFUSAL, VARIABLES};
use std::fmt;

/// Elements on both sides of each buffer, which no call may touch.
pub const MARGIN: usize = 16;

/// Reply, source, text, words and the output.
type SayRefusal = fn(u64, u32, &[u8], &[u32], &mut [u8]) -> usize;

/// One function for each call.
pub struct Implementation {
    pub name: &'static str,
    pub check: fn(&[u8], &mut [u8]) -> u8,
    pub read: fn(&[u8], &mut [u32]) -> u64,
    pub guards: fn(&[u8]) -> u64,
    pub declared: fn(&[u8], &[u32], &mut [u8]) -> u8,
    pub inferred: fn(&[u32], &mut [u64], &mut [u8]) -> u8,
    pub equal: fn(&[u32], &[u32]) -> u64,
    pub serial_declared: fn(&[u8], &[u32], &mut [u32]) -> u64,
    pub serial_inferred: fn(&[u32], &mut [u32]) -> u64,
    pub moves_declared: fn(&[u8], &[u32], &mut [i32]) -> u64,
    pub moves_inferred: fn(&[u32], &mut [i32]) -> u64,
    pub commits_declared: fn(&[u8], &[u32], &mut [u32]) -> u64,
    pub commits_inferred: fn(&[u32], &mut [u32]) -> u64,
    pub write: fn(&[u32], &mut [u8], usize) -> u64,
    pub line_read: fn(&[u8], FieldsOut) -> u64,
    pub line_write: fn(Fields, &mut [u8]) -> u64,
    pub say_verdict: fn(&[u8], &[u32], &mut [u8]) -> usize,
    pub say_refusal: SayRefusal,
    pub say_line: fn(&[u8], &mut [u8]) -> usize,
    pub say_kind: fn(u8, &mut [u8]) -> usize,
    pub say_refusal_name: fn(u8, &mut [u8]) -> usize,
}

pub const REFERENCE: Implementation = Implementation {
    name: "reference",
    check: crate::check,
    read: crate::read,
    guards: crate::guards,
    declared: crate::declared,
    inferred: crate::inferred,
    equal: crate::equal,
    serial_declared: crate::serial_declared,
    serial_inferred: crate::serial_inferred,
    moves_declared: crate::moves_declared,
    moves_inferred: crate::moves_inferred,
    commits_declared: crate::commits_declared,
    commits_inferred: crate::commits_inferred,
    write: crate::write,
    line_read: crate::line_read,
    line_write: crate::line_write,
    say_verdict: crate::say_verdict,
    say_refusal: crate::say_refusal,
    say_line: crate::say_line,
    say_kind: crate::say_kind,
    say_refusal_name: crate::say_refusal_name,
};

// Calls.

#[derive(Clone, Copy, PartialEq)]
pub enum Call {
    Check,
    Read,
    Guards,
    Declared,
    Inferred,
    Equal,
    SerialDeclared,
    SerialInferred,
    MovesDeclared,
    MovesInferred,
    CommitsDeclared,
    CommitsInferred,
    Write,
    LineRead,
    LineWrite,
    SayVerdict,
    SayRefusal,
    SayLine,
    SayKind,
    SayRefusalName,
}

pub const CALLS: [Call; 20] = [
    Call::Check,
    Call::Read,
    Call::Guards,
    Call::Declared,
    Call::Inferred,
    Call::Equal,
    Call::SerialDeclared,
    Call::SerialInferred,
    Call::MovesDeclared,
    Call::MovesInferred,
    Call::CommitsDeclared,
    Call::CommitsInferred,
    Call::Write,
    Call::LineRead,
    Call::LineWrite,
    Call::SayVerdict,
    Call::SayRefusal,
    Call::SayLine,
    Call::SayKind,
    Call::SayRefusalName,
];

const NAMES: [&str; CALLS.len()] = [
    "check",
    "read",
    "guards",
    "declared",
    "inferred",
    "equal",
    "serial declared",
    "serial inferred",
    "moves declared",
    "moves inferred",
    "commits declared",
    "commits inferred",
    "write",
    "line read",
    "line write",
    "say verdict",
    "say refusal",
    "say line",
    "say kind",
    "say refusal name",
];

/// Kinds and refusals that can occur, per call. Kind 0 of read, guards and line read: accepted; of
/// equal: not equal, and 1: equal; of serial orders, displacements, commits, write, line write and
/// words: written.
const POSSIBLE: [(&[usize], &[usize]); CALLS.len()] = [
    (&[0, 3, 4], &[1, 2, 4, 5, 6, 7, 8, 9, 10, 17, 20]),
    (&[0], &[1, 2, 3]),
    (&[0], &[1, 11, 12]),
    (&[0, 1, 2, 3], &[1, 2, 4, 5, 6, 7, 8, 9, 10, 11, 12, 17, 20]),
    (&[0, 3, 4], &[2, 4, 5, 6, 7, 8, 9, 10, 16, 17, 20]),
    (&[0, 1], &[2, 4, 5, 6, 7, 8, 9, 10, 20]),
    (&[0], &[1, 2, 4, 5, 6, 7, 8, 9, 10, 11, 12, 13, 14, 15, 20]),
    (&[0], &[2, 4, 5, 6, 7, 8, 9, 10, 13, 14, 15, 20]),
    (&[0], &[1, 2, 4, 5, 6, 7, 8, 9, 10, 11, 12, 13, 14, 20, 21]),
    (&[0], &[2, 4, 5, 6, 7, 8, 9, 10, 13, 14, 20, 21]),
    (&[0], &[1, 2, 4, 5, 6, 7, 8, 9, 10, 11, 12, 20]),
    (&[0], &[2, 4, 5, 6, 7, 8, 9, 10, 20]),
    (&[0], &[2, 4, 5, 6, 7, 8, 9, 10, 19, 20]),
    (&[0], &[18]),
    (&[0], &[17, 18]),
    (&[0], &[]),
    (&[0], &[]),
    (&[0], &[]),
    (&[0], &[]),
    (&[0], &[]),
];

impl Call {
    pub fn name(self) -> &'static str {
        NAMES[self as usize]
    }

    pub fn possible_kinds(self) -> &'static [usize] {
        POSSIBLE[self as usize].0
    }

    /// What a kind is of this call, which checks a recording.
    pub fn answer(self, kind: usize) -> &'static str {
        match (self, kind) {
            (Call::Equal, 0) => "not equal",
            (Call::Equal, _) => "equal",
            _ if !self.replies_kind() => "written",
            _ => ["reducible", "kind 1", "kind 2", "kind 3", "kind 4"][kind],
        }
    }

    /// Those of equal can occur on either side.
    pub fn possible_refusals(self) -> &'static [usize] {
        POSSIBLE[self as usize].1
    }

    /// The call for the serial order, of one for displacements.
    fn serial(self) -> Option<Call> {
        match self {
            Call::MovesDeclared => Some(Call::SerialDeclared),
            Call::MovesInferred => Some(Call::SerialInferred),
            _ => None,
        }
    }

    fn is_serial(self) -> bool {
        matches!(self, Call::SerialDeclared | Call::SerialInferred)
    }

    /// The serial order or the displacements are written.
    pub fn orders(self) -> bool {
        self.is_serial() || self.serial().is_some()
    }

    /// The reply is the kind of a verdict line.
    pub fn replies_kind(self) -> bool {
        matches!(self, Call::Check | Call::Declared | Call::Inferred)
    }

    /// A recording is checked, and so its locks.
    pub fn checks_recording(self) -> bool {
        self.possible_refusals().contains(&20)
    }

    pub fn takes_list(self) -> bool {
        self.possible_refusals().contains(&11)
    }

    fn writes_line(self) -> bool {
        self.replies_kind() || self == Call::LineWrite
    }

    fn writes_words(self) -> bool {
        self == Call::Read || self.is_serial() || self.commits()
    }

    /// The commits of units are written.
    pub fn commits(self) -> bool {
        matches!(self, Call::CommitsDeclared | Call::CommitsInferred)
    }

    /// Words are written.
    pub fn says(self) -> bool {
        self as usize >= Call::SayVerdict as usize
    }
}

// Cases and outcomes.

/// The input and the lengths of the lent buffers; a call ignores what it does not take.
#[derive(Clone)]
pub struct Case {
    pub call: Call,
    /// Recording text, guard list, verdict line, or what was refused.
    pub text: Vec<u8>,
    pub frames: Vec<u32>,
    /// The right recording.
    pub right: Vec<u32>,
    /// Of the line that is written. Its kind is also that whose name is asked for, or a refusal's
    /// number.
    pub fields: Fields,
    /// Of the refusal that is said, and what it speaks of.
    pub reply: u64,
    pub source: u32,
    pub line_len: usize,
    /// Also the length of the output of a serial order, and of the lists of displacements and of
    /// commits.
    pub words_len: usize,
    pub sets_len: usize,
    /// The text that is written or said, and the place from which on.
    pub text_len: usize,
    pub place: usize,
    /// Decides the contents of the lent buffers before the call.
    pub fill: u64,
}

#[derive(PartialEq)]
pub struct Outcome {
    pub reply: u64,
    pub line: Vec<u8>,
    pub words: Vec<u32>,
    pub moves: Vec<i32>,
    pub sets: Vec<u64>,
    pub text: Vec<u8>,
    pub numbers: Numbers,
    pub input_kept: bool,
    /// What was written reads back, or what was read is written again; set by `compare`.
    pub comes_back: bool,
}

/// The numbers that are lent for the fields of a verdict line, each with margins.
#[derive(Clone, Debug, PartialEq)]
pub struct Numbers {
    kind: Vec<u8>,
    frame: Vec<u16>,
    thread: Vec<u8>,
    begin: Vec<u16>,
    commit: Vec<u16>,
    locks: Vec<u64>,
}

impl Numbers {
    fn filled(random: &mut Random) -> Numbers {
        Numbers {
            kind: filled(random, true, 1, |x| x as u8),
            frame: filled(random, true, 1, |x| x as u16),
            thread: filled(random, true, 1, |x| x as u8),
            begin: filled(random, true, 1, |x| x as u16),
            commit: filled(random, true, 1, |x| x as u16),
            locks: filled(random, true, 1, |x| x),
        }
    }

    fn lent(&mut self) -> FieldsOut<'_> {
        FieldsOut {
            kind: &mut self.kind[MARGIN],
            frame: &mut self.frame[MARGIN],
            thread: &mut self.thread[MARGIN],
            begin: &mut self.begin[MARGIN],
            commit: &mut self.commit[MARGIN],
            locks: &mut self.locks[MARGIN],
        }
    }

    pub fn set(&mut self, fields: Fields) {
        self.lent().set(fields);
    }

    pub fn fields(&self) -> Fields {
        Fields {
            kind: self.kind[MARGIN],
            frame: self.frame[MARGIN],
            thread: self.thread[MARGIN],
            begin: self.begin[MARGIN],
            commit: self.commit[MARGIN],
            locks: self.locks[MARGIN],
        }
    }
}

/// A buffer with margins and random contents; without elements if the call does not take it.
fn filled<T>(random: &mut Random, taken: bool, len: usize, of: fn(u64) -> T) -> Vec<T> {
    let len = if taken { len } else { 0 };
    (0..len + 2 * MARGIN).map(|_| of(random.draw())).collect()
}

/// The part of a buffer that is lent.
fn slot<T>(buffer: &mut [T]) -> &mut [T] {
    let end = buffer.len() - MARGIN;
    &mut buffer[MARGIN..end]
}

/// An input between elements that are no part of it. It starts at any alignment that its type
/// allows.
struct Input<T> {
    whole: Vec<T>,
    skip: usize,
    len: usize,
}

impl<T: Copy + PartialEq> Input<T> {
    fn new(input: &[T], skip: usize, before: T, after: T) -> Input<T> {
        Input {
            whole: [&vec![before; skip], input, &[after; MARGIN]].concat(),
            skip,
            len: input.len(),
        }
    }

    fn lent(&self) -> &[T] {
        &self.whole[self.skip..][..self.len]
    }
}

impl Case {
    pub fn new(call: Call) -> Case {
        Case {
            call,
            text: Vec::new(),
            frames: Vec::new(),
            right: Vec::new(),
            fields: Fields::default(),
            reply: 0,
            source: 0,
            line_len: LINE_BYTES,
            words_len: 0,
            sets_len: VARIABLES,
            text_len: 0,
            place: 0,
            fill: 0,
        }
    }

    pub fn run(&self, implementation: &Implementation) -> Outcome {
        let random = &mut Random::new(self.fill);
        let skip = random.below(MARGIN);
        // A call that reads beyond its input meets an LF, or a word that is no frame.
        let text = Input::new(&self.text, skip, b'0', b'\n');
        let frames = Input::new(&self.frames, skip, 0, 0);
        let right = Input::new(&self.right, skip, 0, 0);
        let call = self.call;
        let mut line = filled(random, call.writes_line(), self.line_len, |x| x as u8);
        let mut words = filled(random, call.writes_words(), self.words_len, |x| x as u32);
        let moved = call.serial().is_some();
        let mut moves = filled(random, moved, self.words_len, |x| x as i32);
        let mut sets = filled(random, call == Call::Inferred, self.sets_len, |x| x);
        let writes = call == Call::Write || call.says();
        let mut written = filled(random, writes, self.text_len, |x| x as u8);
        let mut numbers = Numbers::filled(random);
        let (line_out, words_out, sets_out) = (slot(&mut line), slot(&mut words), slot(&mut sets));
        let (moves_out, text_out) = (slot(&mut moves), slot(&mut written));
        let (text_in, frames_in, right_in) = (text.lent(), frames.lent(), right.lent());
        let Implementation {
            check,
            read,
            guards,
            declared,
            inferred,
            equal,
            serial_declared,
            serial_inferred,
            moves_declared,
            moves_inferred,
            commits_declared,
            commits_inferred,
            write,
            line_read,
            line_write,
            say_verdict,
            say_refusal,
            say_line,
            say_kind,
            say_refusal_name,
            ..
        } = implementation;
        let (refused, source, kind) = (self.reply, self.source, self.fields.kind);
        let reply = match call {
            Call::Check => check(text_in, line_out).into(),
            Call::Read => read(text_in, words_out),
            Call::Guards => guards(text_in),
            Call::Declared => declared(text_in, frames_in, line_out).into(),
            Call::Inferred => inferred(frames_in, sets_out, line_out).into(),
            Call::Equal => equal(frames_in, right_in),
            Call::SerialDeclared => serial_declared(text_in, frames_in, words_out),
            Call::SerialInferred => serial_inferred(frames_in, words_out),
            Call::MovesDeclared => moves_declared(text_in, frames_in, moves_out),
            Call::MovesInferred => moves_inferred(frames_in, moves_out),
            Call::CommitsDeclared => commits_declared(text_in, frames_in, words_out),
            Call::CommitsInferred => commits_inferred(frames_in, words_out),
            Call::Write => write(frames_in, text_out, self.place),
            Call::LineRead => line_read(text_in, numbers.lent()),
            Call::LineWrite => line_write(self.fields, line_out),
            Call::SayVerdict => say_verdict(text_in, frames_in, text_out) as u64,
            Call::SayRefusal => say_refusal(refused, source, text_in, frames_in, text_out) as u64,
            Call::SayLine => say_line(text_in, text_out) as u64,
            Call::SayKind => say_kind(kind, text_out) as u64,
            Call::SayRefusalName => say_refusal_name(kind, text_out) as u64,
        };
        let (text, frames, right) = std::hint::black_box((text, frames, right));
        Outcome {
            reply,
            line,
            words,
            moves,
            sets,
            text: written,
            numbers,
            input_kept: text.lent() == self.text
                && frames.lent() == self.frames
                && right.lent() == self.right,
            comes_back: false,
        }
    }

    /// The outcome of the reference, which the others must share; else what differs.
    pub fn compare(&self, others: &[&Implementation]) -> Result<Outcome, String> {
        let mut expected = self.run(&REFERENCE);
        for other in others {
            let outcome = self.run(other);
            if outcome != expected {
                return Err(format!(
                    "MISMATCH between reference and {}\n{self}\n{}\n{}",
                    other.name,
                    expected.describe(REFERENCE.name),
                    outcome.describe(other.name)
                ));
            }
            if !self.moves_agree(&outcome, other) {
                return Err(format!(
                    "NOT THE DISPLACEMENTS of its serial order\n{self}\n{}",
                    outcome.describe(other.name)
                ));
            }
        }
        if self.call.is_serial() && expected.reply >> 32 == 0 {
            let written = expected.written();
            if !is_serial(written) || crate::equal(&self.frames, written) != 1 {
                return Err(format!(
                    "NOT A SERIAL ORDER of the recording\n{self}\n{}",
                    expected.describe("all")
                ));
            }
        }
        match self.comes_back(&expected) {
            Some(false) => Err(format!(
                "NOT THE SAME when written and read again\n{self}\n{}",
                expected.describe("all")
            )),
            comes_back => {
                expected.comes_back = comes_back.is_some();
                Ok(expected)
            }
        }
    }

    /// Displacements add up to 0, lie below the length in both directions, and lead each word to
    /// its place in the serial order of the same implementation. True of other calls and refusals.
    fn moves_agree(&self, outcome: &Outcome, implementation: &Implementation) -> bool {
        let Some(call) = self.call.serial() else {
            return true;
        };
        if outcome.reply >> 32 != 0 {
            return true;
        }
        let mut case = self.clone();
        case.call = call;
        let serial = case.run(implementation);
        let moves = outcome.displacements();
        let leads = |(place, (&by, word)): (usize, (&i32, &u32))| {
            let to = place.checked_add_signed(by as isize);
            by.unsigned_abs() < outcome.reply as u32
                && to.and_then(|to| serial.written().get(to)) == Some(word)
        };
        serial.reply == outcome.reply
            && moves.iter().map(|&by| i64::from(by)).sum::<i64>() == 0
            && moves.iter().zip(&self.frames).enumerate().all(leads)
    }

    /// Whether what was written reads back, and what was read is written again; none where that is
    /// not promised.
    fn comes_back(&self, outcome: &Outcome) -> Option<bool> {
        if outcome.reply >> 32 != 0 {
            return None;
        }
        let count = outcome.reply as usize;
        match self.call {
            Call::Write => {
                let mut words = vec![0; self.frames.len()];
                let lines = crate::read(outcome.written_text(self.place), &mut words);
                Some(lines == words.len() as u64 && words == self.frames)
            }
            Call::Read => {
                let mut text = vec![0; self.text.len()];
                let bytes = crate::write(&outcome.words[MARGIN..][..count], &mut text, 0);
                // Words that are no sound recording are not written.
                (bytes >> 32 == 0).then(|| bytes == text.len() as u64 && text == self.text)
            }
            Call::LineRead => {
                let mut line = [0; LINE_BYTES];
                crate::line_write(outcome.numbers.fields(), &mut line);
                Some(line == self.text[..])
            }
            Call::LineWrite => {
                let line = &outcome.line[MARGIN..][..count];
                Some(Fields::of_line(line) == Some(self.fields))
            }
            _ => None,
        }
    }
}

impl fmt::Display for Case {
    fn fmt(&self, to: &mut fmt::Formatter) -> fmt::Result {
        writeln!(to, "call {}", self.call.name())?;
        writeln!(to, "text \"{}\"", self.text.escape_ascii())?;
        writeln!(to, "frames {:08X?}", self.frames)?;
        writeln!(to, "right frames {:08X?}", self.right)?;
        writeln!(to, "fields {:X?}", self.fields)?;
        writeln!(to, "reply {:X}, source {}", self.reply, self.source)?;
        let (line, words, sets) = (self.line_len, self.words_len, self.sets_len);
        let (text, place, fill) = (self.text_len, self.place, self.fill);
        write!(
            to,
            "lengths: line {line}, words {words}, sets {sets}, text {text}; place {place}; fill {fill}"
        )
    }
}

/// No other thread's frame stands inside a block.
fn is_serial(words: &[u32]) -> bool {
    let (mut inside, mut depth) = (0, 0);
    words.iter().all(|word| {
        let thread = word >> 16 & 255;
        let alone = depth == 0 || thread == inside;
        inside = thread;
        match word >> 24 {
            5 => depth += 1,
            6 => depth -= 1,
            _ => {}
        }
        alone
    })
}

impl Outcome {
    /// The serial order; there was no refusal.
    pub fn written(&self) -> &[u32] {
        &self.words[MARGIN..][..self.reply as usize]
    }

    /// There was no refusal.
    pub fn displacements(&self) -> &[i32] {
        &self.moves[MARGIN..][..self.reply as usize]
    }

    /// The place of a violation or of a refusal.
    fn place(&self, call: Call) -> usize {
        if !call.replies_kind() {
            return self.reply as u32 as usize;
        }
        let line = self.line[MARGIN..].get(..LINE_BYTES);
        let fields = line.and_then(Fields::of_line);
        fields.map_or(0, |fields| fields.frame.into())
    }

    /// The text that was written from this place on; there was no refusal.
    fn written_text(&self, place: usize) -> &[u8] {
        &self.text[MARGIN + place..][..self.reply as usize]
    }

    pub fn describe(&self, name: &str) -> String {
        let (reply, kept) = (self.reply, self.input_kept);
        let line = self.line.escape_ascii();
        format!(
            "{name}: reply {reply:X}, input kept: {kept}\n  line with margins \"{line}\"\n  \
             words with margins {:08X?}\n  moves with margins {:?}\n  sets with margins {:X?}\n  \
             text with margins \"{}\"\n  numbers with margins {:X?}",
            self.words,
            self.moves,
            self.sets,
            self.text.escape_ascii(),
            self.numbers
        )
    }
}

// Literals.

/// Text of words parted by spaces.
pub fn text(words: &str) -> Vec<u8> {
    words
        .split_whitespace()
        .flat_map(|word| [word.as_bytes(), b"\n"].concat())
        .collect()
}

/// Frames written as words parted by spaces.
pub fn frames(words: &str) -> Vec<u32> {
    let read = |word| u32::from_str_radix(word, 16).expect("eight digits");
    words.split_whitespace().map(read).collect()
}

// Counts.

/// So many frames are near the limit of the length.
pub const LONG: usize = 4000;

/// Boundaries of the calls that write a text, read or write a verdict line, write commits or say
/// words; all must be met.
pub const EDGES: [&str; 22] = [
    "text written, exactly enough room",
    "  from a later place",
    "text refused, a byte less",
    "  from a later place",
    "no frame written, from the end",
    "no frame refused, from the place beyond the end",
    "text refused, place near the greatest number",
    "unsound recording and no room",
    "text written and read again",
    "text read and written again",
    "line with begin or commit absent read",
    "line refused, its kind alone",
    "line refused, a byte of 33",
    "line refused, its length",
    "line buffer short and kind refused",
    "commits of a list shorter than the recording",
    "commits of an open block that has none",
    "commits of an open block that has one",
    "commits behind a violation",
    "words said, exactly enough room",
    "words cut off by a byte",
    "nothing to say",
];

/// A place from here on wraps with the bytes of some recording.
const FAR: usize = usize::MAX - 9 * crate::MOST_FRAMES;

#[derive(Default)]
pub struct Tally {
    pub cases: usize,
    /// As in `possible_kinds`.
    pub kinds: [usize; 5],
    pub refusals: [usize; MOST_REFUSAL + 1],
    /// Refusals of the right recording.
    pub right_refusals: [usize; MOST_REFUSAL + 1],
    /// Of `kinds`, recordings with an inner acquire and its release, before the violation if there
    /// is one.
    pub inner: [usize; 5],
    /// As in `SHOWN`.
    pub shown: [usize; SHOWN.len()],
    /// Violations of kind 1 or 4 with begin absent, begin alone, begin and commit.
    pub shapes: [usize; 3],
    /// Equal recordings in another order, unequal ones of one length, serial orders that are not
    /// the recording, or displacements other than 0.
    pub moved: [usize; 3],
    /// Recordings near the limit of the length that are equal in another order, or have such a
    /// serial order or displacements.
    pub long_moved: usize,
    /// As in `reads::SHOWN`.
    pub reads: [usize; reads::SHOWN.len()],
    /// Texts and verdict lines that were written and read again, or the other way round.
    pub came_back: usize,
    /// As in `EDGES`.
    pub edges: [usize; EDGES.len()],
}

impl Tally {
    pub fn count(&mut self, case: &Case, outcome: &Outcome) {
        self.cases += 1;
        self.came_back += usize::from(outcome.comes_back);
        let (call, reply) = (case.call, outcome.reply);
        let (high, low) = ((reply >> 32) as usize, reply as usize & 0xFFFF_FFFF);
        let (kind, refusal) = match call {
            Call::Equal => (low, high),
            _ if !call.replies_kind() => (0, high),
            _ if reply >= 0x80 => (0, reply as usize - 0x80),
            _ => (reply as usize, 0),
        };
        match refusal {
            0 => self.kinds[kind] += 1,
            1..256 => self.refusals[refusal] += 1,
            _ => self.right_refusals[refusal - 256] += 1,
        }
        if refusal == 0 {
            self.count_accepted(case, outcome, kind);
        }
        if call.checks_recording() && refusal < 256 {
            self.count_holds(case, outcome, kind, refusal);
        }
        let texts = text_edges(case, outcome, refusal);
        let lines = line_edges(case, outcome, refusal);
        let met = texts.into_iter().chain(lines);
        let met = met.chain(said_edges(case, outcome, refusal));
        for (count, met) in self.edges.iter_mut().zip(met) {
            *count += usize::from(met);
        }
    }

    fn count_accepted(&mut self, case: &Case, outcome: &Outcome, kind: usize) {
        if case.call == Call::Equal {
            let same_length = case.frames.len() == case.right.len();
            let moved = kind == 1 && case.frames != case.right;
            self.moved[0] += usize::from(moved);
            self.moved[1] += usize::from(kind == 0 && same_length);
            self.long_moved += usize::from(moved && case.frames.len() >= LONG);
            let shown = reads::shown(&case.frames, &case.right, kind == 1);
            for (count, met) in self.reads.iter_mut().zip(shown) {
                *count += usize::from(met);
            }
        } else if case.call.orders() {
            let moved = match case.call.is_serial() {
                true => outcome.written() != case.frames,
                false => outcome.displacements().iter().any(|&by| by != 0),
            };
            self.moved[2] += usize::from(moved);
            self.long_moved += usize::from(moved && case.frames.len() >= LONG);
        } else if kind == 1 || kind == 4 {
            let places = &outcome.line[MARGIN + 8..MARGIN + 16];
            let present = |place: &[u8]| usize::from(place != b"FFFF");
            self.shapes[present(&places[..4]) + present(&places[4..])] += 1;
        }
    }

    /// The locks of the left recording. Equality and writing do not say whether it is reducible.
    fn count_holds(&mut self, case: &Case, outcome: &Outcome, kind: usize, number: usize) {
        let (call, place) = (case.call, outcome.place(case.call));
        let words = match call {
            Call::Check => crate::read_text(&case.text).unwrap_or_default(),
            _ => case.frames.clone(),
        };
        let reply = match number {
            0 => Ok(kind == 0 && (call.replies_kind() || call.orders())),
            7 | 8 | 20 => Err(Refusal {
                number: number as u8,
                place,
            }),
            _ => return,
        };
        if reply.is_ok() {
            let violation = call.replies_kind() && kind > 0;
            let before = if violation { place } else { words.len() };
            self.inner[kind] += usize::from(has_inner_pair(&words, before));
        }
        for (count, met) in self.shown.iter_mut().zip(shown(&words, reply)) {
            *count += usize::from(met);
        }
    }

    /// Adds the counts of another tally.
    pub fn add(&mut self, other: &Tally) {
        let add = |to: &mut [usize], from: &[usize]| {
            to.iter_mut().zip(from).for_each(|(to, from)| *to += from);
        };
        add(&mut self.kinds, &other.kinds);
        add(&mut self.refusals, &other.refusals);
        add(&mut self.right_refusals, &other.right_refusals);
        add(&mut self.inner, &other.inner);
        add(&mut self.shown, &other.shown);
        add(&mut self.shapes, &other.shapes);
        add(&mut self.moved, &other.moved);
        add(&mut self.reads, &other.reads);
        add(&mut self.edges, &other.edges);
        self.cases += other.cases;
        self.came_back += other.came_back;
        self.long_moved += other.long_moved;
    }
}

/// The first ten of `EDGES`.
fn text_edges(case: &Case, outcome: &Outcome, refusal: usize) -> [bool; 10] {
    let (bytes, place) = (9 * case.frames.len(), case.place);
    let room = case.text_len.checked_sub(place);
    let of_write = case.call == Call::Write;
    let (written, refused) = (of_write && refusal == 0, of_write && refusal == 19);
    let exact = written && bytes > 0 && room == Some(bytes);
    let short = refused && bytes > 0 && room == Some(bytes - 1);
    [
        exact && place == 0,
        exact && place > 0,
        short && place == 0,
        short && place > 0,
        written && bytes == 0 && room == Some(0),
        refused && bytes == 0 && place == case.text_len + 1,
        refused && place > FAR,
        of_write && ![0, 19].contains(&refusal) && room < Some(bytes),
        written && bytes > 0 && outcome.comes_back,
        case.call == Call::Read && !case.text.is_empty() && outcome.comes_back,
    ]
}

/// The next five of `EDGES`.
fn line_edges(case: &Case, outcome: &Outcome, refusal: usize) -> [bool; 5] {
    let read = case.call == Call::LineRead && refusal == 0;
    let refused = case.call == Call::LineRead && refusal == 18;
    let fields = outcome.numbers.fields();
    let whole = case.text.len() == LINE_BYTES;
    let digit = |byte: &u8| b"0123456789ABCDEF".contains(byte);
    let formed = || case.text[..32].iter().all(digit) && case.text[32] == b'\n';
    let kind_refused = (0x05..=0x80).contains(&case.fields.kind);
    [
        read && (fields.begin == ABSENT || fields.commit == ABSENT),
        refused && whole && formed(),
        refused && whole && !formed(),
        refused && !whole,
        case.call == Call::LineWrite && refusal == 17 && kind_refused,
    ]
}

/// The others of `EDGES`.
fn said_edges(case: &Case, outcome: &Outcome, refusal: usize) -> [bool; EDGES.len() - 15] {
    let (call, whole, room) = (case.call, outcome.reply as usize, case.text_len);
    let (said, written) = (call.says(), call.commits() && refusal == 0);
    let mut open = [false; 2];
    let mut wrong = false;
    if written && case.words_len >= case.frames.len() {
        let list = call.takes_list().then_some(&case.text[..]);
        let declared = list.map(|list| crate::read_guards(list).expect("accepted"));
        let frames = crate::check_recording(&case.frames).expect("accepted");
        for unit in crate::units(&frames, &declared) {
            open[usize::from(unit.commit.is_some())] |= !unit.closed;
        }
        let reducible = crate::Verdict::Reducible {
            frames: frames.len(),
        };
        wrong = crate::verdict(&frames, &declared) != reducible;
    }
    [
        written && case.words_len < case.frames.len(),
        open[0],
        open[1],
        wrong,
        said && whole > 0 && room == whole,
        said && room + 1 == whole,
        said && whole == 0,
    ]
}
