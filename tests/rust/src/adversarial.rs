//! Recordings and guard lists at the limits: nesting, locks, locks taken again, threads,
//! displacements, reads, candidate sets. Places and lengths of a text that is written, and the
//! fields of a verdict line, at theirs.

use crate::random::{damage_text, Random, Recording};
use crate::{Fields, MOST_REFUSAL, VARIABLES};

pub const THREADS: u32 = 32;
pub const LOCKS: u32 = 64;
pub const MOST_DEPTH: usize = 15;
pub const MOST_HOLDS: usize = 15;

pub const ACQUIRE: u32 = 1;
pub const RELEASE: u32 = 2;
pub const READ: u32 = 3;
pub const WRITE: u32 = 4;
pub const BEGIN: u32 = 5;
pub const END: u32 = 6;

pub fn word(operation: u32, thread: u32, object: u32) -> u32 {
    operation << 24 | thread << 16 | object
}

/// A read or a write.
fn access(random: &mut Random, thread: u32, variable: u32) -> u32 {
    word(random.pick(&[READ, WRITE]), thread, variable)
}

/// Begin, end, begin and so on: closed if the count is even.
pub fn pairs(count: usize) -> Vec<u32> {
    let mut words = [word(BEGIN, 0, 0), word(END, 0, 0)].repeat(count / 2 + 1);
    words.truncate(count);
    words
}

// Nesting.

/// The greatest nesting in all threads at once: each thread's next frame in turn.
pub fn all_deep(random: &mut Random, operation: u32) -> Vec<u32> {
    let turn: Vec<u32> = random.names(THREADS as usize, THREADS);
    let turn: Vec<u32> = turn
        .iter()
        .map(|&thread| word(operation, thread, 0))
        .collect();
    turn.repeat(MOST_DEPTH)
}

/// Begins and ends of some threads that stay within the limits, but for a last frame beyond them
/// in some recordings. Some have accesses.
pub fn nesting_walk(random: &mut Random) -> Vec<u32> {
    let count = random.pick(&[1, 2, 4, 32]);
    let threads = random.names(count, THREADS);
    let mut depths = vec![0; count];
    let up = random.pick(&[300, 500, 700, 900]);
    let beyond = random.pick(&[0, 0, 5, 50]);
    let accesses = random.pick(&[0, 0, 200]);
    let mut words = Vec::new();
    for _ in 0..random.below(400) {
        let number = random.below(count);
        let (thread, depth) = (threads[number], &mut depths[number]);
        let begins = random.chance(up);
        if random.chance(accesses) {
            words.push(access(random, thread, 5));
        } else if *depth == if begins { MOST_DEPTH } else { 0 } {
            if random.chance(beyond) {
                words.push(word(if begins { BEGIN } else { END }, thread, 0));
                return words;
            }
        } else if begins {
            *depth += 1;
            words.push(word(BEGIN, thread, 0));
        } else {
            *depth -= 1;
            words.push(word(END, thread, 0));
        }
    }
    words
}

// Locks.

/// One thread takes all locks, in this order.
fn acquires(thread: u32, locks: &[u32]) -> Vec<u32> {
    let acquire = |&lock: &u32| word(ACQUIRE, thread, lock);
    locks.iter().map(acquire).collect()
}

/// One thread takes all locks, in random order.
pub fn all_locks(random: &mut Random, thread: u32) -> Vec<u32> {
    acquires(thread, &random.names(LOCKS as usize, LOCKS))
}

struct LockWalk<'a> {
    random: &'a mut Random,
    /// The first one takes all locks at the beginning.
    threads: Vec<u32>,
    owners: Vec<Option<u32>>,
    /// How often each lock is held.
    holds: Vec<usize>,
    /// The guard of each variable.
    guards: Vec<u32>,
    depths: Vec<usize>,
    /// Share of frames that need not follow the rules, of 1,000.
    careless: usize,
}

impl LockWalk<'_> {
    /// A lock with this owner, if there is one; any lock at times.
    fn lock_of(&mut self, owner: Option<u32>) -> Option<u32> {
        let careless = self.random.chance(self.careless);
        let fits = |&lock: &u32| careless || self.owners[lock as usize] == owner;
        let locks: Vec<u32> = (0..LOCKS).filter(fits).collect();
        (!locks.is_empty()).then(|| self.random.pick(&locks))
    }

    fn step(&mut self) -> Option<u32> {
        let number = self.random.pick(&[0, 0, 0, 1, 2]);
        let thread = self.threads[number];
        match self.random.below(20) {
            0..7 => {
                let lock = self.lock_of(Some(thread))?;
                let variable = self.guards.iter().position(|&guard| guard == lock)?;
                Some(access(self.random, thread, variable as u32))
            }
            7..13 => {
                let lock = self.lock_of(Some(thread))?;
                let hold = &mut self.holds[lock as usize];
                *hold = hold.saturating_sub(1);
                if *hold == 0 {
                    self.owners[lock as usize] = None;
                }
                Some(word(RELEASE, thread, lock))
            }
            13..18 => {
                let owner = self.random.pick(&[None, None, Some(thread)]);
                let lock = self.lock_of(owner)?;
                self.owners[lock as usize] = Some(thread);
                self.holds[lock as usize] += 1;
                Some(word(ACQUIRE, thread, lock))
            }
            18 if self.depths[number] < MOST_DEPTH => {
                self.depths[number] += 1;
                Some(word(BEGIN, thread, 0))
            }
            19 if self.depths[number] > 0 => {
                self.depths[number] -= 1;
                Some(word(END, thread, 0))
            }
            _ => None,
        }
    }
}

/// One thread takes all locks; then it and two others access variables, release and acquire, also
/// locks of their own.
pub fn lock_walk(random: &mut Random) -> Recording {
    let threads = random.names(3, THREADS);
    let mut words = all_locks(random, threads[0]);
    let mut walk = LockWalk {
        owners: vec![Some(threads[0]); LOCKS as usize],
        holds: vec![1; LOCKS as usize],
        guards: random.names(40, LOCKS),
        depths: vec![0; 3],
        careless: random.pick(&[0, 0, 0, 2, 20, 200]),
        threads,
        random,
    };
    if walk.random.chance(200) {
        words.insert(0, word(BEGIN, walk.threads[0], 0));
        walk.depths[0] = 1;
    }
    for _ in 0..walk.random.below(300) {
        words.extend(walk.step());
    }
    let guards = (0..).zip(walk.guards.iter().map(|&lock| Some(lock)));
    Recording {
        words,
        guards: guards.collect(),
    }
}

// Locks taken again.

/// Some threads take a few locks and take them again, up to the limit, let them go, access a
/// variable of each lock, begin and end blocks. In some recordings a few frames are not sound.
pub fn hold_walk(random: &mut Random) -> Recording {
    let threads = random.pick(&[1, 2, 3]);
    let threads = random.names(threads, THREADS);
    let locks = random.pick(&[1, 2, 3]);
    let locks = random.names(locks, LOCKS);
    let mut owners = vec![threads[0]; locks.len()];
    let mut holds = vec![0; locks.len()];
    let mut depths = vec![0; threads.len()];
    let up = random.pick(&[400, 550, 700, 900]);
    let beyond = random.pick(&[0, 0, 10, 100]);
    let mut words = Vec::new();
    for _ in 0..random.below(200) {
        let number = random.below(threads.len());
        let (thread, depth) = (threads[number], &mut depths[number]);
        let place = random.below(locks.len());
        let (lock, hold, owner) = (locks[place], &mut holds[place], &mut owners[place]);
        let own = *hold > 0 && *owner == thread;
        let (operation, sound) = match random.below(20) {
            0..4 if own => {
                words.push(access(random, thread, place as u32));
                continue;
            }
            4 | 5 => (BEGIN, *depth < MOST_DEPTH),
            6 | 7 => (END, *depth > 0),
            _ if random.chance(up) => (ACQUIRE, *hold == 0 || own && *hold < MOST_HOLDS),
            _ => (RELEASE, own),
        };
        let object = if operation < BEGIN { lock } else { 0 };
        if sound || random.chance(beyond) {
            words.push(word(operation, thread, object));
        }
        match operation {
            _ if !sound => {}
            ACQUIRE => (*hold, *owner) = (*hold + 1, thread),
            RELEASE => *hold -= 1,
            BEGIN => *depth += 1,
            _ => *depth -= 1,
        }
    }
    let guards = (0..).zip(locks.iter().map(|&lock| Some(lock)));
    Recording {
        words,
        guards: guards.collect(),
    }
}

// Threads.

/// The variables that one thread accesses under its lock, in a strict alternation.
const OWN_VARIABLES: u32 = 16;
const FIRST_UNPROTECTED: u32 = THREADS * OWN_VARIABLES;
/// A block of fewer frames has no place for its commit.
pub const LEAST_STEPS: usize = 8;

/// A block of `steps` frames under two locks of the thread's own that commits at a given step: by
/// a release, or by an access of a variable without a guard. Where there are steps enough some
/// accesses give way to an inner acquire and its release, before the commit, after it or around it.
fn block(random: &mut Random, thread: u32, steps: usize, commit: usize) -> Vec<u32> {
    let mut own_access = |_| {
        let variable = OWN_VARIABLES * thread + random.below(OWN_VARIABLES as usize) as u32;
        access(random, thread, variable)
    };
    let mut frames: Vec<u32> = (0..steps).map(&mut own_access).collect();
    frames[0] = word(BEGIN, thread, 0);
    frames[1] = word(ACQUIRE, thread, thread);
    frames[2] = word(ACQUIRE, thread, THREADS + thread);
    let mut inner = [0; 2].map(|_| random.between(3, steps - 4));
    inner.sort_unstable();
    if random.chance(600) && inner[0] < inner[1] && !inner.contains(&commit) {
        frames[inner[0]] = word(ACQUIRE, thread, thread);
        frames[inner[1]] = word(RELEASE, thread, thread);
    }
    frames[steps - 2] = word(RELEASE, thread, thread);
    frames[steps - 1] = word(END, thread, 0);
    if random.chance(500) {
        frames[commit] = word(RELEASE, thread, THREADS + thread);
    } else {
        frames[commit] = access(random, thread, FIRST_UNPROTECTED + thread);
        frames[steps - 3] = word(RELEASE, thread, THREADS + thread);
    }
    frames
}

/// All threads in strict alternation, each in blocks of its own; blocks that begin together commit
/// in another order than they begin where there are steps enough.
pub fn alternation(random: &mut Random, blocks: usize, steps: usize) -> Recording {
    let threads = random.names(THREADS as usize, THREADS);
    let last_commit = steps - 4;
    let mut words = Vec::new();
    for _ in 0..blocks {
        let mut commits: Vec<usize> = (0..threads.len())
            .map(|number| last_commit - number.min(last_commit - 3))
            .collect();
        if random.chance(500) {
            random.shuffle(&mut commits);
        }
        let each = threads.iter().zip(commits);
        let each: Vec<Vec<u32>> = each
            .map(|(&thread, commit)| block(random, thread, steps, commit))
            .collect();
        words.extend((0..steps).flat_map(|step| each.iter().map(move |frames| frames[step])));
    }
    let guarded = (0..FIRST_UNPROTECTED).map(|variable| (variable, Some(variable / OWN_VARIABLES)));
    let unprotected =
        (FIRST_UNPROTECTED..FIRST_UNPROTECTED + THREADS).map(|variable| (variable, None));
    Recording {
        words,
        guards: guarded.chain(unprotected).collect(),
    }
}

// Displacements.

/// So many frames, at least 3, of which one moves as far as can be: a begin, with frames of other
/// threads outside blocks up to its end; and one such frame, before the end of a block that has all
/// others.
pub fn furthest(count: usize) -> [Vec<u32>; 2] {
    let (begin, end) = (word(BEGIN, 0, 0), word(END, 0, 0));
    let other = |place| {
        let operation = if place % 2 == 0 { ACQUIRE } else { RELEASE };
        word(operation, 1 + place / 2 % (THREADS - 1), 0)
    };
    let others: Vec<u32> = (0..count as u32 - 2).map(other).collect();
    // Inner begins and ends, and an acquire if need be: none of these commits.
    let mut own = pairs((count - 3) / 2 * 2);
    own.resize(count - 3, word(ACQUIRE, 0, 0));
    [
        [&[begin], &others[..], &[end]].concat(),
        [&[begin], &own[..], &[word(ACQUIRE, 1, 1), end]].concat(),
    ]
}

// Reads.

/// So many frames of one variable: all threads but the last read it in turn, and the last one
/// writes it at these places.
pub fn readers(variable: u32, frames: usize, writes: &[usize]) -> Vec<u32> {
    let read = |place| word(READ, place as u32 % (THREADS - 1), variable);
    let mut words: Vec<u32> = (0..frames).map(read).collect();
    for &place in writes {
        words[place] = word(WRITE, THREADS - 1, variable);
    }
    words
}

// Guard lists and candidate sets.

/// Guard lines of so many different variables.
pub fn guard_lines(random: &mut Random, count: usize) -> Vec<u32> {
    let variables = random.names(count, VARIABLES as u32);
    let line = |variable: &u32| variable << 16 | random.below(LOCKS as usize) as u32;
    variables.iter().map(line).collect()
}

/// One thread accesses every variable under all locks, or under all but one.
pub fn every_variable(random: &mut Random) -> Vec<u32> {
    let thread = random.below(THREADS as usize) as u32;
    let mut words = all_locks(random, thread);
    words.truncate(random.pick(&[LOCKS, LOCKS, LOCKS - 1]) as usize);
    for variable in random.names(VARIABLES, VARIABLES as u32) {
        words.push(access(random, thread, variable));
    }
    words
}

/// One thread takes all locks and releases one after another, with accesses of a variable and of
/// its neighbour between; `left` locks of the variable's candidate set are still held at the last
/// access. A lock that is taken again after its release is not in the set any more; one that is
/// taken again before stays in it.
pub fn shrinking(random: &mut Random, variable: u32, left: usize) -> Vec<u32> {
    let thread = random.below(THREADS as usize) as u32;
    let mut held = random.names(LOCKS as usize, LOCKS);
    let mut words = acquires(thread, &held);
    words.push(access(random, thread, variable));
    while held.len() > left {
        let lock = held.swap_remove(random.below(held.len()));
        if random.chance(200) {
            words.push(word(ACQUIRE, thread, lock));
            words.push(access(random, thread, variable));
            words.push(word(RELEASE, thread, lock));
            words.push(access(random, thread, variable));
        }
        words.push(word(RELEASE, thread, lock));
        for _ in 0..random.pick(&[1, 1, 2, 3]) {
            words.push(access(random, thread, variable));
        }
        if random.chance(200) {
            words.push(access(random, thread, variable ^ 1));
        }
        if random.chance(50) {
            words.push(word(ACQUIRE, thread, lock));
        }
    }
    words
}

/// Threads in turn take some locks, some of them more than once, access variables and release the
/// locks; each turn keeps most of the locks of the turn before.
pub fn turns(random: &mut Random) -> Vec<u32> {
    let variables = random.names(2, VARIABLES as u32);
    let mut locks = random.names(LOCKS as usize, LOCKS);
    let mut words = Vec::new();
    for _ in 0..random.between(1, 12) {
        let thread = random.below(THREADS as usize) as u32;
        let (begin, end) = (word(BEGIN, thread, 0), word(END, thread, 0));
        let in_block = random.chance(500);
        words.extend(in_block.then_some(begin));
        let mut taken = locks.clone();
        for _ in 0..random.pick(&[0, 0, 1, 3]) {
            taken.push(random.pick(&locks));
        }
        random.shuffle(&mut taken);
        words.extend(acquires(thread, &taken));
        for _ in 0..random.between(1, 4) {
            let variable = random.pick(&variables);
            words.push(access(random, thread, variable));
        }
        random.shuffle(&mut taken);
        words.extend(taken.iter().map(|&lock| word(RELEASE, thread, lock)));
        words.extend(in_block.then_some(end));
        random.shuffle(&mut locks);
        locks.truncate(random.between(1, locks.len()));
        let other = random.below(LOCKS as usize) as u32;
        if random.chance(300) && !locks.contains(&other) {
            locks.push(other);
        }
    }
    words
}

// Texts that are written.

/// Places beyond any text. Many of them wrap with so many bytes: to 0, to less and to a little more.
pub fn far_places(bytes: usize) -> Vec<usize> {
    let wrapping = [
        bytes,
        bytes + 1,
        bytes + 9,
        bytes / 2,
        bytes.saturating_sub(1),
    ];
    let wrapping = wrapping.into_iter().filter(|&back| back > 0);
    [1 << 32, (1 << 32) + 1, 1 << 63, (1 << 63) + 1]
        .into_iter()
        .chain([1, 2, 8, 9, 10].map(|back| usize::MAX - back + 1))
        .chain(wrapping.map(|back| usize::MAX - back + 1))
        .collect()
}

/// Lengths of a text with places in it and beyond it, on both sides of each boundary for so many
/// bytes.
pub fn rooms(bytes: usize) -> Vec<(usize, usize)> {
    let mut rooms = Vec::new();
    for place in [0, 1, 3, 5, 9, 40] {
        for room in [0, 1, bytes.saturating_sub(1), bytes, bytes + 1, bytes + 9] {
            rooms.push((place + room, place));
        }
        for beyond in [1, 2, 9] {
            rooms.push((place, place + beyond));
        }
    }
    for text_len in [0, 5, bytes, bytes + 9] {
        rooms.extend(far_places(bytes).iter().map(|&place| (text_len, place)));
    }
    rooms
}

/// A length of a text and a place in it, with enough room for so many bytes in most cases.
pub fn random_room(random: &mut Random, bytes: usize) -> (usize, usize) {
    let place = match random.below(3) {
        0 => 0,
        _ => random.below(40),
    };
    let spare = random.below(30);
    match random.below(20) {
        0..8 => (place + bytes, place),
        8..15 => (place + bytes + spare, place),
        15 => ((place + bytes).saturating_sub(1), place),
        16 => (random.between(0, place + bytes), place),
        17 => (place, place + 1 + random.pick(&[0, 0, 1, spare])),
        _ => (place + spare, random.pick(&far_places(bytes))),
    }
}

// Verdict lines.

/// Kinds on both sides of each boundary.
pub const EDGE_KINDS: [u8; 15] = [
    0x00, 0x01, 0x02, 0x03, 0x04, 0x05, 0x7F, 0x80, 0x81, 0x91, 0x94, 0x95, 0x96, 0xFE, 0xFF,
];
pub const EDGE_PLACES: [u16; 7] = [0, 1, 0x0FFF, 0x1000, 0x1001, 0xFFFE, 0xFFFF];
pub const EDGE_LOCKS: [u64; 6] = [0, 1, 6, 1 << 63, u64::MAX - 1, u64::MAX];

/// Fields of a verdict line, at edges and anywhere; of most the kind fits.
pub fn random_fields(random: &mut Random) -> Fields {
    let place = |random: &mut Random| match random.below(3) {
        0 => random.draw() as u16,
        _ => random.pick(&EDGE_PLACES),
    };
    Fields {
        kind: match random.below(4) {
            0 => random.pick(&EDGE_KINDS),
            1 => random.draw() as u8,
            2 => random.between(0x81, 0x80 + MOST_REFUSAL) as u8,
            _ => random.between(0x00, 0x04) as u8,
        },
        frame: place(random),
        thread: match random.below(2) {
            0 => random.draw() as u8,
            _ => random.pick(&[0, 1, 31, 32, 255]),
        },
        begin: place(random),
        commit: place(random),
        locks: match random.below(3) {
            0 => random.draw(),
            1 => 1 << random.below(LOCKS as usize),
            _ => random.pick(&EDGE_LOCKS),
        },
    }
}

/// A verdict line, damaged in some cases.
pub fn random_line(random: &mut Random) -> Vec<u8> {
    let mut line = random_fields(random).line().into_bytes();
    let place = random.below(32);
    match random.below(20) {
        0..3 => damage_text(random, &mut line),
        3 => line[place] = random.draw() as u8,
        4 => line[place] = random.pick(b"/:@G`afg\n\r \0\xFF"),
        5 => line[32] = random.draw() as u8,
        6 => line.truncate(random.below(33)),
        7 => line.extend(random.pick(&[&b"\n"[..], b"\r", b"0", &[0]])),
        8 => line.insert(32, random.pick(b"\r0\n")),
        _ => {}
    }
    line
}

/// Lines that are one change away from this one: each byte that is next to a digit at each place,
/// lower case, other ends, other lengths.
pub fn near_lines(line: &[u8]) -> Vec<Vec<u8>> {
    let mut lines = vec![line.to_ascii_lowercase(), [line, line].concat()];
    for place in 0..line.len() {
        for &byte in b"/:@G`afg\n\r \0\xFF" {
            let mut changed = line.to_vec();
            changed[place] = byte;
            lines.push(changed);
        }
        lines.push([&line[..place], &line[place + 1..]].concat());
        lines.push([&line[..place], b"0", &line[place..]].concat());
        lines.push(line[..place].to_vec());
    }
    let digits = &line[..32];
    for end in [&b"\r"[..], b"\r\n", b"\n\n", b"\n\0", b" \n", b"0", b"0\n"] {
        lines.push([digits, end].concat());
    }
    lines
}
