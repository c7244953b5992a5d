//! Reference checker, by docs/FORMAT.md alone; clarity comes before speed.

use std::collections::{BTreeMap, BTreeSet, VecDeque};

pub mod adversarial;
pub mod case;
pub mod holds;
pub mod library;
pub mod plain;
pub mod random;
pub mod random_case;
pub mod reads;
pub mod table;
pub mod words;

pub const MOST_FRAMES: usize = 4096;
pub const LINE_BYTES: usize = 33;
pub const VARIABLES: usize = 1024;
const MOST_THREAD: u8 = 31;
const MOST_LOCK: u16 = 63;
const MOST_VARIABLE: u16 = 1023;
const MOST_DEPTH: u32 = 15;
const MOST_HOLDS: u32 = 15;
const ABSENT: u16 = 0xFFFF;
/// The greatest number of a refusal.
pub const MOST_REFUSAL: usize = 21;
/// Added to the number of a refusal of the right recording.
const RIGHT_SIDE: u64 = 256;

#[derive(Clone, Copy, Debug, PartialEq, Eq)]
pub struct Refusal {
    pub number: u8,
    pub place: usize,
}

fn refuse<T>(number: u8, place: usize) -> Result<T, Refusal> {
    Err(Refusal { number, place })
}

// Text.

/// The number of at most 16 digits.
fn number(digits: &[u8]) -> Option<u64> {
    digits.iter().try_fold(0, |number, &byte| match byte {
        b'0'..=b'9' => Some(number * 16 + u64::from(byte - b'0')),
        b'A'..=b'F' => Some(number * 16 + u64::from(byte - b'A') + 10),
        _ => None,
    })
}

/// The word on a line that is eight digits and an LF.
fn word_of_line(line: &[u8]) -> Option<u32> {
    let digits = line.strip_suffix(b"\n")?;
    if digits.len() != 8 {
        return None;
    }
    Some(number(digits)? as u32)
}

/// The lines of a text, each with its LF; the last one may lack it.
fn lines(text: &[u8]) -> impl Iterator<Item = (usize, &[u8])> {
    text.split_inclusive(|&byte| byte == b'\n').enumerate()
}

/// Refusals 1 and 2.
pub fn read_text(text: &[u8]) -> Result<Vec<u32>, Refusal> {
    let mut words = Vec::new();
    for (place, line) in lines(text) {
        if place == MOST_FRAMES {
            return refuse(2, MOST_FRAMES);
        }
        let Some(word) = word_of_line(line) else {
            return refuse(1, place);
        };
        words.push(word);
    }
    Ok(words)
}

/// The guard of each named variable. Refusals 1, 11 and 12.
pub fn read_guards(list: &[u8]) -> Result<BTreeMap<u16, u16>, Refusal> {
    let mut guards = BTreeMap::new();
    for (place, line) in lines(list) {
        let Some(word) = word_of_line(line) else {
            return refuse(1, place);
        };
        let (variable, lock) = ((word >> 16) as u16, word as u16);
        if variable > MOST_VARIABLE || lock > MOST_LOCK {
            return refuse(11, place);
        }
        if guards.insert(variable, lock).is_some() {
            return refuse(12, place);
        }
    }
    Ok(guards)
}

// Frames.

#[derive(Clone, Copy)]
enum Action {
    Acquire(u16),
    Release(u16),
    /// Of a lock that its thread holds before.
    InnerAcquire(u16),
    /// Of a lock that its thread still holds after.
    InnerRelease(u16),
    Read(u16),
    Write(u16),
    Begin,
    End,
}

#[derive(Clone, Copy)]
pub struct Frame {
    thread: u8,
    action: Action,
}

/// The frame, or the number of its refusal: 4, 5 or 6. Alone no frame is inner.
fn frame_of_word(word: u32) -> Result<Frame, u8> {
    let (operation, thread, object) = ((word >> 24) as u8, (word >> 16) as u8, word as u16);
    let (action, most) = match operation {
        1 => (Action::Acquire(object), MOST_LOCK),
        2 => (Action::Release(object), MOST_LOCK),
        3 => (Action::Read(object), MOST_VARIABLE),
        4 => (Action::Write(object), MOST_VARIABLE),
        5 => (Action::Begin, 0),
        6 => (Action::End, 0),
        _ => return Err(4),
    };
    if thread > MOST_THREAD {
        return Err(5);
    }
    if object > most {
        return Err(6);
    }
    Ok(Frame { thread, action })
}

/// A lock that is held: by whom, and how often.
struct Hold {
    owner: u8,
    count: u32,
}

/// The frames of a sound recording, the inner ones told apart. Refusals 2, 4 to 10 and 20.
pub fn check_recording(words: &[u32]) -> Result<Vec<Frame>, Refusal> {
    if words.len() > MOST_FRAMES {
        return refuse(2, MOST_FRAMES);
    }
    let mut frames = Vec::new();
    let mut holds: BTreeMap<u16, Hold> = BTreeMap::new();
    let mut depths: BTreeMap<u8, u32> = BTreeMap::new();
    for (place, &word) in words.iter().enumerate() {
        let mut frame = match frame_of_word(word) {
            Ok(frame) => frame,
            Err(number) => return refuse(number, place),
        };
        let depth = depths.entry(frame.thread).or_insert(0);
        match frame.action {
            Action::Acquire(lock) => match holds.get_mut(&lock) {
                None => {
                    let owner = frame.thread;
                    holds.insert(lock, Hold { owner, count: 1 });
                }
                Some(hold) if hold.owner != frame.thread => return refuse(7, place),
                Some(hold) if hold.count == MOST_HOLDS => return refuse(20, place),
                Some(hold) => {
                    hold.count += 1;
                    frame.action = Action::InnerAcquire(lock);
                }
            },
            Action::Release(lock) => match holds.get_mut(&lock) {
                Some(hold) if hold.owner == frame.thread && hold.count > 1 => {
                    hold.count -= 1;
                    frame.action = Action::InnerRelease(lock);
                }
                Some(hold) if hold.owner == frame.thread => {
                    holds.remove(&lock);
                }
                _ => return refuse(8, place),
            },
            Action::Begin => {
                if *depth == MOST_DEPTH {
                    return refuse(9, place);
                }
                *depth += 1;
            }
            Action::End => {
                if *depth == 0 {
                    return refuse(10, place);
                }
                *depth -= 1;
            }
            _ => {}
        }
        frames.push(frame);
    }
    Ok(frames)
}

// Verdict.

#[derive(Clone, Copy, Debug, PartialEq, Eq)]
pub struct Violation {
    pub kind: u8,
    pub frame: usize,
    pub thread: u8,
    pub begin: Option<usize>,
    pub commit: Option<usize>,
    pub locks: u64,
}

#[derive(Clone, Copy, Debug, PartialEq, Eq)]
pub enum Verdict {
    Reducible { frames: usize },
    Violation(Violation),
}

struct Block {
    begin: usize,
    depth: u32,
    commit: Option<usize>,
}

#[derive(Default)]
struct Thread {
    held: BTreeSet<u16>,
    block: Option<Block>,
}

impl Thread {
    fn after_commit(&self) -> bool {
        self.commit_frame().is_some()
    }

    fn commit_frame(&self) -> Option<usize> {
        self.block.as_ref().and_then(|block| block.commit)
    }

    /// Commits a block before commit at this place; does nothing otherwise.
    fn commit_at(&mut self, place: usize) {
        if let Some(block) = &mut self.block {
            block.commit.get_or_insert(place);
        }
    }
}

fn bits(locks: &BTreeSet<u16>) -> u64 {
    locks.iter().map(|lock| 1 << lock).sum()
}

/// What decides an access. A variable without a candidate set entry has all locks.
enum Guards<'a> {
    Declared(&'a BTreeMap<u16, u16>),
    Inferred(BTreeMap<u16, BTreeSet<u16>>),
}

impl Guards<'_> {
    /// Kind and locks if the access goes wrong.
    fn access(&mut self, thread: &mut Thread, variable: u16, place: usize) -> Option<(u8, u64)> {
        match self {
            Guards::Declared(guards) => match guards.get(&variable) {
                Some(guard) => (!thread.held.contains(guard)).then_some((1, 1 << guard)),
                None if thread.after_commit() => Some((2, 0)),
                None => {
                    thread.commit_at(place);
                    None
                }
            },
            Guards::Inferred(candidates) => {
                let before = candidates.get(&variable);
                let shared: BTreeSet<u16> = match before {
                    Some(set) => set.intersection(&thread.held).copied().collect(),
                    None => thread.held.clone(),
                };
                if shared.is_empty() {
                    return Some((4, before.map_or(u64::MAX, bits)));
                }
                candidates.insert(variable, shared);
                None
            }
        }
    }
}

fn judge(frames: &[Frame], guards: &mut Guards) -> Verdict {
    let mut threads: BTreeMap<u8, Thread> = BTreeMap::new();
    for (place, frame) in frames.iter().enumerate() {
        let thread = threads.entry(frame.thread).or_default();
        let mut wrong = None;
        match frame.action {
            Action::Acquire(lock) if thread.after_commit() => wrong = Some((3, 1 << lock)),
            Action::Acquire(lock) => {
                thread.held.insert(lock);
            }
            Action::Release(lock) => {
                thread.held.remove(&lock);
                thread.commit_at(place);
            }
            Action::InnerAcquire(_) | Action::InnerRelease(_) => {}
            Action::Read(variable) | Action::Write(variable) => {
                wrong = guards.access(thread, variable, place);
            }
            Action::Begin => match &mut thread.block {
                Some(block) => block.depth += 1,
                None => {
                    thread.block = Some(Block {
                        begin: place,
                        depth: 1,
                        commit: None,
                    })
                }
            },
            Action::End => match &mut thread.block {
                Some(block) if block.depth > 1 => block.depth -= 1,
                _ => thread.block = None,
            },
        }
        if let Some((kind, locks)) = wrong {
            return Verdict::Violation(Violation {
                kind,
                frame: place,
                thread: frame.thread,
                begin: thread.block.as_ref().map(|block| block.begin),
                commit: thread.commit_frame(),
                locks,
            });
        }
    }
    Verdict::Reducible {
        frames: frames.len(),
    }
}

/// The guard of each variable that a list names; none if guards are inferred.
type Declared = Option<BTreeMap<u16, u16>>;

pub fn declared_verdict(frames: &[Frame], guards: &BTreeMap<u16, u16>) -> Verdict {
    judge(frames, &mut Guards::Declared(guards))
}

/// The verdict and the candidate set of each variable.
pub fn inferred_verdict(frames: &[Frame]) -> (Verdict, [u64; VARIABLES]) {
    let mut guards = Guards::Inferred(BTreeMap::new());
    let verdict = judge(frames, &mut guards);
    let mut sets = [u64::MAX; VARIABLES];
    if let Guards::Inferred(candidates) = guards {
        for (variable, set) in candidates {
            sets[usize::from(variable)] = bits(&set);
        }
    }
    (verdict, sets)
}

fn verdict(frames: &[Frame], declared: &Declared) -> Verdict {
    match declared {
        Some(guards) => declared_verdict(frames, guards),
        None => inferred_verdict(frames).0,
    }
}

// Equality.

/// The accesses of one variable.
#[derive(Default, PartialEq, Eq)]
struct Accesses {
    /// In recorded order.
    writes: Vec<u32>,
    /// How often each read stands behind so many writes.
    reads: BTreeMap<(usize, u32), usize>,
}

/// The frames of each thread and of each lock in recorded order, and the accesses of each
/// variable. Two recordings are equal exactly if these agree: no exchange changes them, and of two
/// frames that are not independent they tell which comes first, be these of one thread, of one
/// lock, two writes of one variable, or a read and a write of it.
#[derive(Default, PartialEq, Eq)]
struct Projections {
    threads: BTreeMap<u8, Vec<u32>>,
    locks: BTreeMap<u16, Vec<u32>>,
    variables: BTreeMap<u16, Accesses>,
}

fn projections(words: &[u32], frames: &[Frame]) -> Projections {
    let mut projections = Projections::default();
    let Projections {
        threads,
        locks,
        variables,
    } = &mut projections;
    for (&word, frame) in words.iter().zip(frames) {
        threads.entry(frame.thread).or_default().push(word);
        match frame.action {
            Action::Acquire(lock)
            | Action::Release(lock)
            | Action::InnerAcquire(lock)
            | Action::InnerRelease(lock) => locks.entry(lock).or_default().push(word),
            Action::Read(variable) => {
                let Accesses { writes, reads } = variables.entry(variable).or_default();
                *reads.entry((writes.len(), word)).or_default() += 1;
            }
            Action::Write(variable) => variables.entry(variable).or_default().writes.push(word),
            Action::Begin | Action::End => {}
        }
    }
    projections
}

/// Words that are no frame are independent of none.
pub fn independent(left: u32, right: u32) -> bool {
    let (Ok(left), Ok(right)) = (frame_of_word(left), frame_of_word(right)) else {
        return false;
    };
    left.thread != right.thread
        && match (left.action, right.action) {
            (
                Action::Acquire(left) | Action::Release(left),
                Action::Acquire(right) | Action::Release(right),
            ) => left != right,
            (Action::Read(_), Action::Read(_)) => true,
            (
                Action::Read(left) | Action::Write(left),
                Action::Read(right) | Action::Write(right),
            ) => left != right,
            _ => true,
        }
}

/// Equality by its definition: a search over exchanges, for few frames.
pub fn brute_equal(left: &[u32], right: &[u32]) -> bool {
    assert!(left.len() <= 8, "too many frames to search");
    let mut seen = BTreeSet::from([left.to_vec()]);
    let mut open = VecDeque::from([left.to_vec()]);
    while let Some(words) = open.pop_front() {
        if words == right {
            return true;
        }
        for place in 1..words.len() {
            if independent(words[place - 1], words[place]) {
                let mut exchanged = words.clone();
                exchanged.swap(place - 1, place);
                if seen.insert(exchanged.clone()) {
                    open.push_back(exchanged);
                }
            }
        }
    }
    false
}

// Serial order and displacements.

/// A block from its outermost begin on, or one frame outside any block.
struct Unit {
    /// None of a block that is open at the end and has not committed.
    commit: Option<usize>,
    places: Vec<usize>,
    closed: bool,
}

/// The units of a sound recording, which need not be reducible, in the order of their starts.
fn units(frames: &[Frame], declared: &Declared) -> Vec<Unit> {
    let guards = declared.as_ref();
    let unprotected = |variable| guards.is_some_and(|guards| !guards.contains_key(&variable));
    let mut units: Vec<Unit> = Vec::new();
    // Each thread's open block, by its number in `units`, and its depth.
    let mut blocks: BTreeMap<u8, (usize, u32)> = BTreeMap::new();
    for (place, frame) in frames.iter().enumerate() {
        let (number, depth) = blocks.remove(&frame.thread).unwrap_or_else(|| {
            units.push(Unit {
                commit: None,
                places: Vec::new(),
                closed: false,
            });
            (units.len() - 1, 0)
        });
        let unit = &mut units[number];
        unit.places.push(place);
        let (depth, commits) = match frame.action {
            Action::Begin => (depth + 1, false),
            Action::End => (depth - 1, false),
            Action::Acquire(_) => (depth, false),
            Action::Release(_) => (depth, true),
            Action::InnerAcquire(_) | Action::InnerRelease(_) => (depth, false),
            Action::Read(variable) | Action::Write(variable) => (depth, unprotected(variable)),
        };
        unit.closed = depth == 0;
        // The end of a block and a single frame commit what did not commit before.
        if commits || unit.closed {
            unit.commit.get_or_insert(place);
        }
        if !unit.closed {
            blocks.insert(frame.thread, (number, depth));
        }
    }
    units
}

/// The commit of the unit that starts at each place, if one starts there and has committed.
fn commits(frames: &[Frame], declared: &Declared) -> Vec<Option<usize>> {
    let mut commits = vec![None; frames.len()];
    for unit in units(frames, declared) {
        commits[unit.places[0]] = unit.commit;
    }
    commits
}

/// The places of a sound recording in serial order. Refusals 13 and 14.
fn serial_places(frames: &[Frame], declared: &Declared) -> Result<Vec<usize>, Refusal> {
    if let Verdict::Violation(violation) = verdict(frames, declared) {
        return refuse(13, violation.frame);
    }
    let mut units = units(frames, declared);
    if let Some(open) = units.iter().find(|unit| !unit.closed) {
        return refuse(14, open.places[0]);
    }
    units.sort_by_key(|unit| unit.commit);
    Ok(units.into_iter().flat_map(|unit| unit.places).collect())
}

/// By place in the recording, given the places in serial order.
fn displacements(places: &[usize]) -> Vec<i32> {
    let mut moves = vec![0; places.len()];
    for (to, &from) in places.iter().enumerate() {
        moves[from] = to as i32 - from as i32;
    }
    moves
}

// The verdict line.

/// The fields of a verdict line. An absent begin or commit is FFFF.
#[derive(Clone, Copy, Debug, Default, PartialEq, Eq)]
pub struct Fields {
    pub kind: u8,
    pub frame: u16,
    pub thread: u8,
    pub begin: u16,
    pub commit: u16,
    pub locks: u64,
}

impl Fields {
    /// Of a line that is read or written.
    fn kind_fits(&self) -> bool {
        matches!(self.kind, 0x00..=0x04 | 0x81..=0xFF)
    }

    /// The line of these fields, whatever the kind.
    pub fn line(&self) -> String {
        format!(
            "{:02X}{:04X}{:02X}{:04X}{:04X}{:016X}\n",
            self.kind, self.frame, self.thread, self.begin, self.commit, self.locks
        )
    }

    /// The fields of a line that is 32 digits and an LF, with a kind that fits.
    pub fn of_line(line: &[u8]) -> Option<Fields> {
        let digits = line.strip_suffix(b"\n")?;
        if digits.len() != 32 {
            return None;
        }
        let fields = Fields {
            kind: number(&digits[..2])? as u8,
            frame: number(&digits[2..6])? as u16,
            thread: number(&digits[6..8])? as u8,
            begin: number(&digits[8..12])? as u16,
            commit: number(&digits[12..16])? as u16,
            locks: number(&digits[16..])?,
        };
        fields.kind_fits().then_some(fields)
    }
}

/// The kind as a number and the verdict line.
pub fn verdict_line(reply: Result<Verdict, Refusal>) -> (u8, String) {
    let place = |place: Option<usize>| place.map_or(ABSENT, |place| place as u16);
    let without_violation = |kind, frame| Fields {
        kind,
        frame: frame as u16,
        begin: ABSENT,
        commit: ABSENT,
        ..Fields::default()
    };
    let fields = match reply {
        Ok(Verdict::Reducible { frames }) => without_violation(0, frames),
        Ok(Verdict::Violation(violation)) => Fields {
            kind: violation.kind,
            frame: violation.frame as u16,
            thread: violation.thread,
            begin: place(violation.begin),
            commit: place(violation.commit),
            locks: violation.locks,
        },
        Err(refusal) => without_violation(0x80 + refusal.number, refusal.place),
    };
    (fields.kind, fields.line())
}

// The calls of the library.

/// Writes the verdict line and returns the kind. Refusal 17 writes nothing.
fn answer(line: &mut [u8], reply: impl FnOnce() -> Result<Verdict, Refusal>) -> u8 {
    if line.len() < LINE_BYTES {
        return 0x80 + 17;
    }
    let (kind, text) = verdict_line(reply());
    line[..LINE_BYTES].copy_from_slice(text.as_bytes());
    kind
}

fn packed(reply: Result<usize, Refusal>) -> u64 {
    match reply {
        Ok(count) => count as u64,
        Err(refusal) => u64::from(refusal.number) << 32 | refusal.place as u64,
    }
}

pub fn check(text: &[u8], line: &mut [u8]) -> u8 {
    answer(line, || {
        let frames = check_recording(&read_text(text)?)?;
        Ok(inferred_verdict(&frames).0)
    })
}

pub fn read(text: &[u8], words: &mut [u32]) -> u64 {
    packed(read_text(text).and_then(|read| {
        if words.len() < read.len() {
            return refuse(3, read.len());
        }
        words[..read.len()].copy_from_slice(&read);
        Ok(read.len())
    }))
}

pub fn guards(list: &[u8]) -> u64 {
    packed(read_guards(list).map(|guards| guards.len()))
}

pub fn declared(list: &[u8], words: &[u32], line: &mut [u8]) -> u8 {
    answer(line, || {
        let guards = read_guards(list)?;
        let frames = check_recording(words)?;
        Ok(declared_verdict(&frames, &guards))
    })
}

pub fn inferred(words: &[u32], sets: &mut [u64], line: &mut [u8]) -> u8 {
    answer(line, || {
        let frames = check_recording(words)?;
        if sets.len() < VARIABLES {
            return refuse(16, VARIABLES);
        }
        let (verdict, final_sets) = inferred_verdict(&frames);
        sets[..VARIABLES].copy_from_slice(&final_sets);
        Ok(verdict)
    })
}

pub fn equal(left: &[u32], right: &[u32]) -> u64 {
    let left_frames = match check_recording(left) {
        Ok(frames) => frames,
        Err(refusal) => return packed(Err(refusal)),
    };
    let right_frames = match check_recording(right) {
        Ok(frames) => frames,
        Err(refusal) => return packed(Err(refusal)) + (RIGHT_SIDE << 32),
    };
    u64::from(projections(left, &left_frames) == projections(right, &right_frames))
}

/// Writes what the places in serial order give for each frame. Without a list guards are inferred;
/// an output that is too short has this refusal.
fn write_each<T: Copy>(
    list: Option<&[u8]>,
    words: &[u32],
    out: &mut [T],
    short: u8,
    of_places: impl Fn(&[usize]) -> Vec<T>,
) -> u64 {
    let mut written = || {
        let declared = list.map(read_guards).transpose()?;
        let places = serial_places(&check_recording(words)?, &declared)?;
        if out.len() < words.len() {
            return refuse(short, words.len());
        }
        out[..words.len()].copy_from_slice(&of_places(&places));
        Ok(words.len())
    };
    packed(written())
}

fn serial(list: Option<&[u8]>, words: &[u32], out: &mut [u32]) -> u64 {
    let in_order = |places: &[usize]| places.iter().map(|&place| words[place]).collect();
    write_each(list, words, out, 15, in_order)
}

pub fn serial_declared(list: &[u8], words: &[u32], out: &mut [u32]) -> u64 {
    serial(Some(list), words, out)
}

pub fn serial_inferred(words: &[u32], out: &mut [u32]) -> u64 {
    serial(None, words, out)
}

pub fn moves_declared(list: &[u8], words: &[u32], moves: &mut [i32]) -> u64 {
    write_each(Some(list), words, moves, 21, displacements)
}

pub fn moves_inferred(words: &[u32], moves: &mut [i32]) -> u64 {
    write_each(None, words, moves, 21, displacements)
}

/// Without a list guards are inferred.
fn write_commits(list: Option<&[u8]>, words: &[u32], out: &mut [u32]) -> u64 {
    let mut written = || {
        let declared = list.map(read_guards).transpose()?;
        let commits = commits(&check_recording(words)?, &declared);
        for (out, commit) in out.iter_mut().zip(commits) {
            *out = commit.map_or(*out, |commit| commit as u32 + 1);
        }
        Ok(words.len())
    };
    packed(written())
}

pub fn commits_declared(list: &[u8], words: &[u32], commits: &mut [u32]) -> u64 {
    write_commits(Some(list), words, commits)
}

pub fn commits_inferred(words: &[u32], commits: &mut [u32]) -> u64 {
    write_commits(None, words, commits)
}

pub fn write(words: &[u32], text: &mut [u8], place: usize) -> u64 {
    packed(check_recording(words).and_then(|_| {
        let lines: String = words.iter().map(|word| format!("{word:08X}\n")).collect();
        let count = lines.len();
        match text.get_mut(place..) {
            Some(room) if room.len() >= count => {
                room[..count].copy_from_slice(lines.as_bytes());
                Ok(count)
            }
            _ => refuse(19, count),
        }
    }))
}

/// Where the fields of a line are written.
pub struct FieldsOut<'a> {
    pub kind: &'a mut u8,
    pub frame: &'a mut u16,
    pub thread: &'a mut u8,
    pub begin: &'a mut u16,
    pub commit: &'a mut u16,
    pub locks: &'a mut u64,
}

impl FieldsOut<'_> {
    pub fn set(self, fields: Fields) {
        *self.kind = fields.kind;
        *self.frame = fields.frame;
        *self.thread = fields.thread;
        *self.begin = fields.begin;
        *self.commit = fields.commit;
        *self.locks = fields.locks;
    }
}

pub fn line_read(line: &[u8], out: FieldsOut) -> u64 {
    let Some(fields) = Fields::of_line(line) else {
        return packed(refuse(18, 0));
    };
    out.set(fields);
    0
}

pub fn line_write(fields: Fields, line: &mut [u8]) -> u64 {
    if line.len() < LINE_BYTES {
        return packed(refuse(17, LINE_BYTES));
    }
    if !fields.kind_fits() {
        return packed(refuse(18, 0));
    }
    line[..LINE_BYTES].copy_from_slice(fields.line().as_bytes());
    LINE_BYTES as u64
}

/// Writes as much of a text as there is room for; the number of bytes of the whole.
fn say(text: String, out: &mut [u8]) -> usize {
    let count = text.len().min(out.len());
    out[..count].copy_from_slice(&text.as_bytes()[..count]);
    text.len()
}

pub fn say_verdict(line: &[u8], words: &[u32], out: &mut [u8]) -> usize {
    say(words::line_text(line, words), out)
}

pub fn say_refusal(reply: u64, source: u32, text: &[u8], words: &[u32], out: &mut [u8]) -> usize {
    say(words::reply_text(reply, source, text, words), out)
}

pub fn say_line(line: &[u8], out: &mut [u8]) -> usize {
    say(words::line_text(line, &[]), out)
}

pub fn say_kind(kind: u8, out: &mut [u8]) -> usize {
    say(words::kind_name(kind), out)
}

pub fn say_refusal_name(number: u8, out: &mut [u8]) -> usize {
    say(words::refusal_name(number), out)
}
