//! A plain safe checker with the behaviour of `trace_check`, `trace_equal`, the serial calls, those
//! for displacements, `trace_write` and `trace_line_read`, for the benchmark. Text to words,
//! soundness, verdict and line are separate passes, and so are soundness and text; equality, serial
//! orders and displacements take one more over places linked to lists. No heap, no unsafe.

use crate::{Fields, FieldsOut};

const MOST_FRAMES: usize = 4096;
const VARIABLES: usize = 1024;
const LOCKS: usize = 64;
const THREADS: usize = 32;
const MOST_HOLDS: u8 = 15;
const LINE_BYTES: usize = 33;
const TEXT_LINE: usize = 9;
const ABSENT: u16 = 0xFFFF;
const NOT_A_DIGIT: u8 = 0xFF;
const DIGITS: [u8; 16] = *b"0123456789ABCDEF";
const READ: u32 = 3;

/// The value of each digit byte.
const DIGIT: [u8; 256] = {
    let mut table = [NOT_A_DIGIT; 256];
    let mut value = 0;
    while value < 16 {
        table[DIGITS[value] as usize] = value as u8;
        value += 1;
    }
    table
};

/// The highest object of each operation.
const MOST_OBJECT: [u16; 8] = [0, 63, 63, 1023, 1023, 0, 0, 0];

struct Refusal {
    number: u8,
    place: u16,
}

fn refuse<T>(number: u8, place: usize) -> Result<T, Refusal> {
    Err(Refusal {
        number,
        place: place as u16,
    })
}

struct Reply {
    kind: u8,
    frame: u16,
    thread: u8,
    begin: u16,
    commit: u16,
    locks: u64,
}

impl Reply {
    fn without_violation(kind: u8, frame: u16) -> Reply {
        Reply {
            kind,
            frame,
            thread: 0,
            begin: ABSENT,
            commit: ABSENT,
            locks: 0,
        }
    }
}

#[inline(always)]
fn word_of_line(line: &[u8]) -> Option<u32> {
    let mut value = 0;
    let mut seen = 0;
    for &byte in &line[..8] {
        let digit = DIGIT[usize::from(byte)];
        seen |= digit;
        value = value << 4 | u32::from(digit & 15);
    }
    (seen != NOT_A_DIGIT && line[8] == b'\n').then_some(value)
}

fn read_text<'a>(text: &[u8], words: &'a mut [u32; MOST_FRAMES]) -> Result<&'a [u32], Refusal> {
    let lines = text.chunks_exact(TEXT_LINE);
    let unfinished = !lines.remainder().is_empty();
    let count = lines.len().min(MOST_FRAMES);
    for (place, (line, word)) in lines.zip(words.iter_mut()).enumerate() {
        let Some(value) = word_of_line(line) else {
            return refuse(1, place);
        };
        *word = value;
    }
    if text.len() > MOST_FRAMES * TEXT_LINE {
        return refuse(2, MOST_FRAMES);
    }
    if unfinished {
        return refuse(1, count);
    }
    Ok(&words[..count])
}

fn check_sound(words: &[u32]) -> Result<(), Refusal> {
    // The thread that took each lock last, and how often it holds it.
    let mut owners = [0u8; LOCKS];
    let mut holds = [0u8; LOCKS];
    let mut depths = [0u8; THREADS];
    for (place, &word) in words.iter().enumerate() {
        let operation = (word >> 24) as usize;
        let thread = (word >> 16 & 255) as usize;
        let object = word as u16;
        if !(1..=6).contains(&operation) {
            return refuse(4, place);
        }
        if thread > 31 {
            return refuse(5, place);
        }
        if object > MOST_OBJECT[operation] {
            return refuse(6, place);
        }
        let lock = usize::from(object & 63);
        match operation {
            1 => {
                if holds[lock] == 0 {
                    owners[lock] = thread as u8;
                } else if owners[lock] != thread as u8 {
                    return refuse(7, place);
                } else if holds[lock] == MOST_HOLDS {
                    return refuse(20, place);
                }
                holds[lock] += 1;
            }
            2 => {
                if holds[lock] == 0 || owners[lock] != thread as u8 {
                    return refuse(8, place);
                }
                holds[lock] -= 1;
            }
            5 => {
                if depths[thread] == 15 {
                    return refuse(9, place);
                }
                depths[thread] += 1;
            }
            6 => {
                if depths[thread] == 0 {
                    return refuse(10, place);
                }
                depths[thread] -= 1;
            }
            _ => {}
        }
    }
    Ok(())
}

#[derive(Clone, Copy)]
struct Thread {
    held: u64,
    depth: u8,
    begin: u16,
    commit: u16,
}

impl Thread {
    const START: Thread = Thread {
        held: 0,
        depth: 0,
        begin: ABSENT,
        commit: ABSENT,
    };
}

/// The words are a sound recording.
fn judge(words: &[u32]) -> Reply {
    let mut sets = [u64::MAX; VARIABLES];
    let mut threads = [Thread::START; THREADS];
    let mut holds = [0u8; LOCKS];
    for (place, &word) in words.iter().enumerate() {
        let place = place as u16;
        let number = (word >> 16 & 31) as u8;
        let thread = &mut threads[usize::from(number)];
        let lock = (word & 63) as usize;
        let violation = |thread: &Thread, kind, locks| Reply {
            kind,
            frame: place,
            thread: number,
            begin: thread.begin,
            commit: thread.commit,
            locks,
        };
        match word >> 24 {
            1 => {
                if holds[lock] == 0 {
                    if thread.commit != ABSENT {
                        return violation(thread, 3, 1 << lock);
                    }
                    thread.held |= 1 << lock;
                }
                holds[lock] += 1;
            }
            2 => {
                holds[lock] -= 1;
                if holds[lock] == 0 {
                    thread.held &= !(1 << lock);
                    if thread.depth > 0 && thread.commit == ABSENT {
                        thread.commit = place;
                    }
                }
            }
            3 | 4 => {
                let set = &mut sets[(word & 1023) as usize];
                let shared = *set & thread.held;
                if shared == 0 {
                    return violation(thread, 4, *set);
                }
                *set = shared;
            }
            5 => {
                if thread.depth == 0 {
                    thread.begin = place;
                }
                thread.depth += 1;
            }
            _ => {
                thread.depth -= 1;
                if thread.depth == 0 {
                    thread.begin = ABSENT;
                    thread.commit = ABSENT;
                }
            }
        }
    }
    Reply::without_violation(0, words.len() as u16)
}

fn write_line(reply: &Reply, line: &mut [u8; LINE_BYTES]) {
    let head = u64::from(reply.kind) << 56
        | u64::from(reply.frame) << 40
        | u64::from(reply.thread) << 32
        | u64::from(reply.begin) << 16
        | u64::from(reply.commit);
    for (place, byte) in line[..32].iter_mut().enumerate() {
        let half = if place < 16 { head } else { reply.locks };
        *byte = DIGITS[(half >> (60 - 4 * (place & 15)) & 15) as usize];
    }
    line[32] = b'\n';
}

pub fn check(text: &[u8], line: &mut [u8]) -> u8 {
    let Some(line) = line.first_chunk_mut() else {
        return 0x80 + 17;
    };
    let mut words = [0; MOST_FRAMES];
    let judged = read_text(text, &mut words).and_then(|words| {
        check_sound(words)?;
        Ok(judge(words))
    });
    let reply = judged.unwrap_or_else(|no| Reply::without_violation(0x80 + no.number, no.place));
    write_line(&reply, line);
    reply.kind
}

fn packed(reply: Result<usize, Refusal>) -> u64 {
    match reply {
        Ok(count) => count as u64,
        Err(refusal) => u64::from(refusal.number) << 32 | u64::from(refusal.place),
    }
}

fn check_words(words: &[u32]) -> Result<(), Refusal> {
    if words.len() > MOST_FRAMES {
        return refuse(2, MOST_FRAMES);
    }
    check_sound(words)
}

/// Locks and variables in one numbering; begin and end touch none.
fn touched(word: u32) -> Option<usize> {
    match word >> 24 {
        1 | 2 => Some((word & 63) as usize),
        3 | 4 => Some(LOCKS + (word & 1023) as usize),
        _ => None,
    }
}

/// The first place behind the matched writes of a lock or variable, and behind all its matched
/// frames. Every frame of a lock counts as a write.
#[derive(Clone, Copy)]
struct Matched {
    writes: u16,
    all: u16,
}

/// Both are sound. Each frame of the right is matched with the first one left of its thread. That
/// must be the same word, and stand behind all matched frames of what it touches, or behind the
/// writes if it is a read.
fn same_order(left: &[u32], right: &[u32]) -> bool {
    if left.len() != right.len() {
        return false;
    }
    // The first place left of each thread, and the next place of the same thread.
    let mut first = [ABSENT; THREADS];
    let mut next = [ABSENT; MOST_FRAMES];
    for (place, &word) in left.iter().enumerate().rev() {
        let first = &mut first[(word >> 16 & 31) as usize];
        next[place] = *first;
        *first = place as u16;
    }
    let mut matched = [Matched { writes: 0, all: 0 }; LOCKS + VARIABLES];
    for &word in right {
        let first = &mut first[(word >> 16 & 31) as usize];
        let place = *first;
        if left.get(usize::from(place)) != Some(&word) {
            return false;
        }
        *first = next[usize::from(place)];
        if let Some(item) = touched(word) {
            let Matched { writes, all } = &mut matched[item];
            let reads = word >> 24 == READ;
            if place < if reads { *writes } else { *all } {
                return false;
            }
            *all = (place + 1).max(*all);
            if !reads {
                *writes = place + 1;
            }
        }
    }
    true
}

pub fn equal(left: &[u32], right: &[u32]) -> u64 {
    if let Err(refusal) = check_words(left) {
        return packed(Err(refusal));
    }
    if let Err(refusal) = check_words(right) {
        return packed(Err(refusal)) + (256 << 32);
    }
    u64::from(same_order(left, right))
}

enum Access {
    Free,
    Commits,
    Wrong,
}

/// The first place of the unit that commits here, and the next place of the same unit.
struct Units {
    first: [u16; MOST_FRAMES],
    next: [u16; MOST_FRAMES],
}

impl Units {
    /// All places in serial order.
    fn places(&self) -> impl Iterator<Item = usize> + '_ {
        let mut units = self.first.iter().copied().filter(|&place| place != ABSENT);
        let mut next = ABSENT;
        std::iter::from_fn(move || {
            if next == ABSENT {
                next = units.next()?;
            }
            let place = usize::from(next);
            next = self.next[place];
            Some(place)
        })
    }
}

/// The words are a sound recording. Refusals 13 and 14, and one of an output that is too short.
#[inline(always)]
fn write_order<T>(
    words: &[u32],
    out: &mut [T],
    short: u8,
    write: impl Fn(&mut [T], &Units),
    mut access: impl FnMut(&Thread, usize) -> Access,
) -> Result<usize, Refusal> {
    let mut threads = [Thread::START; THREADS];
    let mut holds = [0u8; LOCKS];
    let mut last = [0u16; THREADS];
    let mut units = Units {
        first: [ABSENT; MOST_FRAMES],
        next: [ABSENT; MOST_FRAMES],
    };
    let Units { first, next } = &mut units;
    for (place, &word) in words.iter().enumerate() {
        let number = (word >> 16 & 31) as usize;
        let thread = &mut threads[number];
        let operation = word >> 24;
        let lock = (word & 63) as usize;
        let mut commits = false;
        match operation {
            1 => {
                if holds[lock] == 0 {
                    if thread.commit != ABSENT {
                        return refuse(13, place);
                    }
                    thread.held |= 1 << lock;
                }
                holds[lock] += 1;
            }
            2 => {
                holds[lock] -= 1;
                if holds[lock] == 0 {
                    thread.held &= !(1 << lock);
                    commits = true;
                }
            }
            3 | 4 => match access(thread, (word & 1023) as usize) {
                Access::Free => {}
                Access::Commits => commits = true,
                Access::Wrong => return refuse(13, place),
            },
            _ => {}
        }
        if thread.depth == 0 {
            if operation == 5 {
                thread.depth = 1;
                thread.begin = place as u16;
                last[number] = place as u16;
            } else {
                first[place] = place as u16;
            }
            continue;
        }
        next[usize::from(last[number])] = place as u16;
        last[number] = place as u16;
        if operation == 5 {
            thread.depth += 1;
        } else if operation == 6 {
            thread.depth -= 1;
            commits = thread.depth == 0;
        }
        if commits && thread.commit == ABSENT {
            thread.commit = place as u16;
        }
        if thread.depth == 0 {
            first[usize::from(thread.commit)] = thread.begin;
            thread.commit = ABSENT;
        }
    }
    let open = threads.iter().filter(|thread| thread.depth > 0);
    if let Some(begin) = open.map(|thread| thread.begin).min() {
        return refuse(14, usize::from(begin));
    }
    let Some(out) = out.get_mut(..words.len()) else {
        return refuse(short, words.len());
    };
    write(out, &units);
    Ok(words.len())
}

/// The guard of each variable, `NO_GUARD` if it is not named.
const NO_GUARD: u8 = 0xFF;

fn read_guards(list: &[u8]) -> Result<[u8; VARIABLES], Refusal> {
    let mut guards = [NO_GUARD; VARIABLES];
    let lines = list.chunks_exact(TEXT_LINE);
    let (count, unfinished) = (lines.len(), !lines.remainder().is_empty());
    for (place, line) in lines.enumerate() {
        let Some(word) = word_of_line(line) else {
            return refuse(1, place);
        };
        let (variable, lock) = ((word >> 16) as usize, word & 0xFFFF);
        if variable >= VARIABLES || lock as usize >= LOCKS {
            return refuse(11, place);
        }
        if guards[variable] != NO_GUARD {
            return refuse(12, place);
        }
        guards[variable] = lock as u8;
    }
    if unfinished {
        return refuse(1, count);
    }
    Ok(guards)
}

fn write_declared<T>(
    list: &[u8],
    words: &[u32],
    out: &mut [T],
    short: u8,
    write: impl Fn(&mut [T], &Units),
) -> u64 {
    packed(read_guards(list).and_then(|guards| {
        check_words(words)?;
        write_order(words, out, short, write, |thread, variable| {
            match guards[variable] {
                NO_GUARD if thread.commit == ABSENT => Access::Commits,
                NO_GUARD => Access::Wrong,
                guard if thread.held >> guard & 1 == 1 => Access::Free,
                _ => Access::Wrong,
            }
        })
    }))
}

fn write_inferred<T>(
    words: &[u32],
    out: &mut [T],
    short: u8,
    write: impl Fn(&mut [T], &Units),
) -> u64 {
    packed(check_words(words).and_then(|()| {
        let mut sets = [u64::MAX; VARIABLES];
        write_order(words, out, short, write, |thread, variable| {
            sets[variable] &= thread.held;
            match sets[variable] {
                0 => Access::Wrong,
                _ => Access::Free,
            }
        })
    }))
}

/// Writes the words in serial order.
fn serial_words(words: &[u32]) -> impl Fn(&mut [u32], &Units) + '_ {
    |out, units| {
        for (to, place) in out.iter_mut().zip(units.places()) {
            *to = words[place];
        }
    }
}

pub fn serial_declared(list: &[u8], words: &[u32], out: &mut [u32]) -> u64 {
    write_declared(list, words, out, 15, serial_words(words))
}

pub fn serial_inferred(words: &[u32], out: &mut [u32]) -> u64 {
    write_inferred(words, out, 15, serial_words(words))
}

fn displacements(moves: &mut [i32], units: &Units) {
    for (to, from) in (0..moves.len()).zip(units.places()) {
        moves[from] = to as i32 - from as i32;
    }
}

pub fn moves_declared(list: &[u8], words: &[u32], moves: &mut [i32]) -> u64 {
    write_declared(list, words, moves, 21, displacements)
}

pub fn moves_inferred(words: &[u32], moves: &mut [i32]) -> u64 {
    write_inferred(words, moves, 21, displacements)
}

#[inline(always)]
fn write_word(word: u32, line: &mut [u8]) {
    for (place, byte) in line[..8].iter_mut().enumerate() {
        *byte = DIGITS[(word >> (28 - 4 * place) & 15) as usize];
    }
    line[8] = b'\n';
}

pub fn write(words: &[u32], text: &mut [u8], place: usize) -> u64 {
    packed(check_words(words).and_then(|()| {
        let bytes = TEXT_LINE * words.len();
        let room = text.get_mut(place..);
        let Some(room) = room.and_then(|room| room.get_mut(..bytes)) else {
            return refuse(19, bytes);
        };
        for (line, &word) in room.chunks_exact_mut(TEXT_LINE).zip(words) {
            write_word(word, line);
        }
        Ok(bytes)
    }))
}

/// The number of 16 digits.
#[inline(always)]
fn number_of_digits(digits: &[u8]) -> Option<u64> {
    let mut value = 0;
    let mut seen = 0;
    for &byte in &digits[..16] {
        let digit = DIGIT[usize::from(byte)];
        seen |= digit;
        value = value << 4 | u64::from(digit & 15);
    }
    (seen != NOT_A_DIGIT).then_some(value)
}

/// The fields of a verdict line; none is refusal 18.
pub fn fields_of_line(line: &[u8]) -> Option<Fields> {
    let line: &[u8; LINE_BYTES] = line.try_into().ok()?;
    if line[32] != b'\n' {
        return None;
    }
    let head = number_of_digits(&line[..16])?;
    let locks = number_of_digits(&line[16..32])?;
    let kind = (head >> 56) as u8;
    if (0x05..=0x80).contains(&kind) {
        return None;
    }
    Some(Fields {
        kind,
        frame: (head >> 40) as u16,
        thread: (head >> 32) as u8,
        begin: (head >> 16) as u16,
        commit: head as u16,
        locks,
    })
}

pub fn line_read(line: &[u8], out: FieldsOut) -> u64 {
    match fields_of_line(line) {
        Some(fields) => {
            out.set(fields);
            0
        }
        None => packed(refuse(18, 0)),
    }
}
