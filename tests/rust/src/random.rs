//! Seeded random recordings, exchanges of their frames, guard lists and damaged texts.

use crate::{independent, MOST_HOLDS};

/// splitmix64.
#[derive(Clone)]
pub struct Random(u64);

impl Random {
    pub fn new(seed: u64) -> Random {
        Random(seed)
    }

    pub fn draw(&mut self) -> u64 {
        self.0 = self.0.wrapping_add(0x9E37_79B9_7F4A_7C15);
        let mut z = self.0;
        z = (z ^ z >> 30).wrapping_mul(0xBF58_476D_1CE4_E5B9);
        z = (z ^ z >> 27).wrapping_mul(0x94D0_49BB_1331_11EB);
        z ^ z >> 31
    }

    /// A number from 0 to `limit` - 1.
    pub fn below(&mut self, limit: usize) -> usize {
        (self.draw() % limit as u64) as usize
    }

    pub fn between(&mut self, low: usize, high: usize) -> usize {
        low + self.below(high - low + 1)
    }

    /// True in `share` of 1,000 cases.
    pub fn chance(&mut self, share: usize) -> bool {
        self.below(1000) < share
    }

    pub fn pick<T: Copy>(&mut self, from: &[T]) -> T {
        from[self.below(from.len())]
    }

    pub fn shuffle<T>(&mut self, items: &mut [T]) {
        for last in (1..items.len()).rev() {
            items.swap(last, self.below(last + 1));
        }
    }

    /// `count` different numbers below `limit`.
    pub fn names(&mut self, count: usize, limit: u32) -> Vec<u32> {
        let mut all: Vec<u32> = (0..limit).collect();
        self.shuffle(&mut all);
        all.truncate(count);
        all
    }
}

/// How a recording is made. Shares are of 1,000.
#[derive(Clone, Debug)]
pub struct Plan {
    pub threads: usize,
    pub locks: usize,
    pub variables: usize,
    pub frames: usize,
    /// Weight of begin; the other weights but the next are fixed.
    pub nesting: usize,
    /// Weight of inner acquires, and of inner releases.
    pub inner: usize,
    /// Share of variables without a guard.
    pub unprotected: usize,
    /// Share of frames that need not follow the rules of the verdict.
    pub careless: usize,
    /// Share of frames that need not be sound.
    pub wild: usize,
}

pub struct Recording {
    pub words: Vec<u32>,
    /// Each variable used and its guard.
    pub guards: Vec<(u32, Option<u32>)>,
}

#[derive(Clone, Default)]
struct Thread {
    held: Vec<usize>,
    depth: usize,
    committed: bool,
}

struct Maker<'a> {
    random: &'a mut Random,
    threads: Vec<Thread>,
    thread_names: Vec<u32>,
    lock_names: Vec<u32>,
    /// How often each lock is held.
    holds: Vec<u32>,
    variable_names: Vec<u32>,
    guards: Vec<Option<usize>>,
    /// The variables that each lock guards.
    guarded: Vec<Vec<usize>>,
    nesting: usize,
    inner: usize,
}

impl Maker<'_> {
    fn word(&self, operation: u32, thread: usize, object: u32) -> u32 {
        operation << 24 | self.thread_names[thread] << 16 | object
    }

    /// A sound frame if one is found at random, and how often in a row; `careful` also asks for the
    /// rules of the verdict.
    fn step(&mut self, careful: bool) -> Option<(u32, usize)> {
        let number = self.random.below(self.threads.len());
        let weights = [3, 2, 6, self.nesting, 2, self.inner, self.inner];
        let mut at = self.random.below(weights.iter().sum());
        let mut choice = 0;
        while at >= weights[choice] {
            at -= weights[choice];
            choice += 1;
        }
        let thread = &mut self.threads[number];
        match choice {
            0 => {
                let lock = self.random.below(self.holds.len());
                if self.holds[lock] > 0 || careful && thread.committed {
                    return None;
                }
                self.holds[lock] = 1;
                thread.held.push(lock);
                Some((self.word(1, number, self.lock_names[lock]), 1))
            }
            1 => {
                if thread.held.is_empty() {
                    return None;
                }
                let place = self.random.below(thread.held.len());
                let lock = thread.held[place];
                self.holds[lock] -= 1;
                if self.holds[lock] == 0 {
                    thread.held.swap_remove(place);
                    thread.committed = thread.depth > 0;
                }
                Some((self.word(2, number, self.lock_names[lock]), 1))
            }
            2 => {
                let mut variable = self.random.below(self.guards.len());
                if careful && !thread.held.is_empty() && self.guards[variable].is_some() {
                    let lock = self.random.pick(&thread.held);
                    if self.guarded[lock].is_empty() {
                        return None;
                    }
                    variable = self.random.pick(&self.guarded[lock]);
                }
                let fits = match self.guards[variable] {
                    Some(lock) => thread.held.contains(&lock),
                    None => !thread.committed,
                };
                if careful && !fits {
                    return None;
                }
                thread.committed |= self.guards[variable].is_none() && thread.depth > 0;
                let operation = 3 + self.random.below(2) as u32;
                let word = self.word(operation, number, self.variable_names[variable]);
                Some((word, 1))
            }
            3 if thread.depth < 15 => {
                thread.depth += 1;
                Some((self.word(5, number, 0), 1))
            }
            4 if thread.depth > 0 => {
                thread.depth -= 1;
                thread.committed &= thread.depth > 0;
                Some((self.word(6, number, 0), 1))
            }
            5 | 6 if !thread.held.is_empty() => {
                let lock = self.random.pick(&thread.held);
                Some(self.inner_step(number, lock, choice == 5))
            }
            _ => None,
        }
    }

    /// Inner acquires of a lock, or inner releases: one in most cases, or up to all that there can
    /// be.
    fn inner_step(&mut self, thread: usize, lock: usize, acquires: bool) -> (u32, usize) {
        let hold = self.holds[lock];
        let (operation, most) = match acquires {
            true => (1, MOST_HOLDS - hold),
            false => (2, hold - 1),
        };
        let times = match self.random.below(8) {
            0 => most as usize,
            1 => self.random.between(0, most as usize),
            _ => most.min(1) as usize,
        };
        self.holds[lock] = match acquires {
            true => hold + times as u32,
            false => hold - times as u32,
        };
        (self.word(operation, thread, self.lock_names[lock]), times)
    }

    /// A word that need not be sound, and how often in a row.
    fn wild_words(&mut self) -> (u32, usize) {
        let thread = self.random.below(self.threads.len());
        let held = &self.threads[thread].held;
        if !held.is_empty() && self.random.chance(150) {
            let lock = self.random.pick(held);
            let times = MOST_HOLDS - self.holds[lock] + 1;
            return (self.word(1, thread, self.lock_names[lock]), times as usize);
        }
        (self.wild_word(), 1)
    }

    fn wild_word(&mut self) -> u32 {
        match self.random.below(8) {
            0 => self.random.draw() as u32,
            1 => edge_word(self.random),
            _ => {
                let thread = self.random.below(self.threads.len());
                let operation = self.random.between(1, 6) as u32;
                let object = match operation {
                    1 | 2 => self.random.pick(&self.lock_names),
                    3 | 4 => self.random.pick(&self.variable_names),
                    _ => 0,
                };
                self.word(operation, thread, object)
            }
        }
    }
}

/// A word whose fields are at the limits of the table of operations.
pub fn edge_word(random: &mut Random) -> u32 {
    let operation = random.pick(&[0, 1, 1, 2, 2, 3, 3, 4, 4, 5, 5, 6, 6, 7, 255]);
    let thread = random.pick(&[0, 0, 1, 1, 30, 31, 31, 32, 255]);
    let object = random.pick(&[0, 0, 0, 0, 1, 63, 64, 65, 1023, 1024, 65535]);
    operation << 24 | thread << 16 | object
}

pub fn recording(random: &mut Random, plan: &Plan) -> Recording {
    let guards: Vec<Option<usize>> = (0..plan.variables)
        .map(|_| (!random.chance(plan.unprotected)).then(|| random.below(plan.locks)))
        .collect();
    let mut guarded = vec![Vec::new(); plan.locks];
    for (variable, guard) in guards.iter().enumerate() {
        if let Some(lock) = guard {
            guarded[*lock].push(variable);
        }
    }
    let mut maker = Maker {
        threads: vec![Thread::default(); plan.threads],
        thread_names: random.names(plan.threads, 32),
        lock_names: random.names(plan.locks, 64),
        holds: vec![0; plan.locks],
        variable_names: random.names(plan.variables, 1024),
        guards,
        guarded,
        nesting: plan.nesting,
        inner: plan.inner,
        random,
    };
    let mut words = Vec::with_capacity(plan.frames);
    while words.len() < plan.frames {
        let made = if maker.random.chance(plan.wild) {
            Some(maker.wild_words())
        } else {
            let careful = !maker.random.chance(plan.careless);
            maker.step(careful)
        };
        if let Some((word, times)) = made {
            words.resize(words.len() + times, word);
        }
    }
    words.truncate(plan.frames);
    let named = maker.variable_names.iter().zip(&maker.guards);
    let guards = named
        .map(|(&variable, guard)| (variable, guard.map(|lock| maker.lock_names[lock])))
        .collect();
    Recording { words, guards }
}

/// The frames of one block under locks, or outside any: locks are taken in ascending order and
/// only before the commit, so that threads with such frames never wait for each other in a ring.
fn unit_under_locks(random: &mut Random, thread: u32, locks: usize, unprotected: bool) -> Vec<u32> {
    let word = |operation: u32, object: u32| operation << 24 | thread << 16 | object;
    let mut held: Vec<u32> = (0..locks as u32).filter(|_| random.chance(400)).collect();
    // Lock n guards variables 10 * n to 10 * n + 9.
    let access = |random: &mut Random, held: &[u32]| {
        let variable = 10 * random.pick(held) + random.below(10) as u32;
        word(3 + random.below(2) as u32, variable)
    };
    let mut frames = Vec::new();
    for (count, &lock) in held.iter().enumerate() {
        frames.push(word(1, lock));
        for _ in 0..random.below(3) {
            frames.push(access(random, &held[..=count]));
        }
    }
    if unprotected && random.chance(300) {
        frames.push(word(
            3 + random.below(2) as u32,
            random.between(100, 103) as u32,
        ));
    }
    while !held.is_empty() {
        frames.push(word(2, held.swap_remove(random.below(held.len()))));
        if !held.is_empty() && random.chance(500) {
            frames.push(access(random, &held));
        }
    }
    add_inner_pairs(random, &mut frames);
    if random.chance(800) {
        for _ in 0..random.pick(&[0, 0, 0, 1, 2]) {
            let begin = random.between(0, frames.len());
            let end = random.between(begin, frames.len());
            frames.insert(end, word(6, 0));
            frames.insert(begin, word(5, 0));
        }
        // Some blocks begin with locks held, or end so.
        let (mut begin, mut end) = (0, frames.len());
        if random.chance(300) {
            begin = random.between(0, end);
            end = random.between(begin, end);
        }
        frames.insert(end, word(6, 0));
        frames.insert(begin, word(5, 0));
    }
    frames
}

/// Adds inner acquires and their releases to frames that take each lock once and let it go: a few,
/// or as many of one lock as it can be held.
fn add_inner_pairs(random: &mut Random, frames: &mut Vec<u32>) {
    let acquires = frames.iter().filter(|&word| word >> 24 == 1);
    let acquires: Vec<u32> = acquires.copied().collect();
    if acquires.is_empty() {
        return;
    }
    let mut pairs: Vec<u32> = (0..random.pick(&[0, 0, 1, 1, 2, 3]))
        .map(|_| random.pick(&acquires))
        .collect();
    if random.chance(50) {
        pairs = vec![acquires[0]; MOST_HOLDS as usize - 1];
    }
    for acquire in pairs {
        let release = acquire + (1 << 24);
        let first = frames.iter().position(|&word| word == acquire);
        let last = frames.iter().rposition(|&word| word == release);
        if let (Some(first), Some(last)) = (first, last) {
            let begin = random.between(first + 1, last);
            let end = random.between(begin, last);
            frames.insert(end, release);
            frames.insert(begin, acquire);
        }
    }
}

/// The frames of several threads interleaved at random. An acquire waits for its lock; where all
/// wait, the rest is left out.
fn schedule(random: &mut Random, threads: &[Vec<u32>]) -> Vec<u32> {
    // Who took each lock last, and how often it is held.
    let (mut owners, mut holds) = ([0; 64], [0usize; 64]);
    let mut words = Vec::new();
    let mut done = vec![0; threads.len()];
    loop {
        let ready: Vec<usize> = (0..threads.len())
            .filter(|&thread| {
                let next = threads[thread].get(done[thread]);
                let free = |lock: usize| holds[lock] == 0 || owners[lock] == thread;
                next.is_some_and(|word| word >> 24 != 1 || free((word & 63) as usize))
            })
            .collect();
        if ready.is_empty() {
            return words;
        }
        let thread = random.pick(&ready);
        let word = threads[thread][done[thread]];
        let lock = (word & 63) as usize;
        match word >> 24 {
            1 => (owners[lock], holds[lock]) = (thread, holds[lock] + 1),
            2 => holds[lock] = holds[lock].saturating_sub(1),
            _ => {}
        }
        words.push(word);
        done[thread] += 1;
    }
}

/// The same frames of each thread in another interleaving: sound if the recording is, but locks
/// and variables may be met in another order.
pub fn reschedule(random: &mut Random, words: &[u32]) -> Vec<u32> {
    let mut threads = vec![Vec::new(); 256];
    for &word in words {
        threads[(word >> 16 & 255) as usize].push(word);
    }
    threads.retain(|frames| !frames.is_empty());
    schedule(random, &threads)
}

/// At most eight frames: one thread takes a lock again and lets it go, another does something else.
pub fn taken_again(random: &mut Random) -> Vec<u32> {
    let threads = random.names(2, 4);
    let word = |thread: usize, (operation, object): (u32, u32)| {
        operation << 24 | threads[thread] << 16 | object
    };
    let again = [(1, 0), (1, 0), (2, 0), (2, 0)];
    let mut words: Vec<u32> = again.iter().map(|&frame| word(0, frame)).collect();
    if random.chance(500) {
        let read = word(0, (3, random.below(2) as u32));
        words.insert(random.between(0, 4), read);
    }
    let other: [&[(u32, u32)]; 6] = [
        &[(3, 0)],
        &[(4, 0), (4, 1)],
        &[(1, 0), (2, 0)],
        &[(1, 1), (1, 1), (2, 1)],
        &[(5, 0), (6, 0)],
        &[(5, 0), (3, 1), (6, 0)],
    ];
    let other = random.pick(&other).iter();
    words.extend(other.map(|&frame| word(1, frame)));
    reschedule(random, &words)
}

/// So many frames: threads read a few variables and write them now and then. In some recordings
/// they also take two locks and let them go, begin and end.
pub fn shared_reads(random: &mut Random, threads: usize, frames: usize) -> Vec<u32> {
    let threads = random.names(threads, 32);
    let (count, limit) = (random.between(1, 3), random.pick(&[3, 64, 1024]));
    let variables = random.names(count, limit);
    let writes = random.pick(&[30, 150, 400]);
    let others = random.pick(&[0, 100, 300]);
    let mut owners = [None; 2];
    let mut inside = vec![false; threads.len()];
    let mut step = |_| {
        let number = random.below(threads.len());
        let (operation, object) = if random.chance(others) {
            let lock = random.below(owners.len());
            match owners[lock] {
                None => {
                    owners[lock] = Some(number);
                    (1, lock as u32)
                }
                Some(owner) if owner == number => {
                    owners[lock] = None;
                    (2, lock as u32)
                }
                Some(_) => {
                    inside[number] ^= true;
                    (if inside[number] { 5 } else { 6 }, 0)
                }
            }
        } else {
            let operation = if random.chance(writes) { 4 } else { 3 };
            (operation, random.pick(&variables))
        };
        operation << 24 | threads[number] << 16 | object
    };
    (0..frames).map(&mut step).collect()
}

/// Units of several threads under at most eight locks, interleaved at random: reducible, and
/// every block is closed.
pub fn interleaved(random: &mut Random, units: usize, unprotected: bool) -> Recording {
    let locks = random.between(1, 8);
    let threads = random.between(1, 5);
    let mut waiting: Vec<Vec<u32>> = vec![Vec::new(); threads];
    let thread_names = random.names(threads, 32);
    for _ in 0..units {
        let thread = random.below(threads);
        let frames = unit_under_locks(random, thread_names[thread], locks, unprotected);
        waiting[thread].extend(frames);
    }
    let words = schedule(random, &waiting);
    let guarded = (0..10 * locks as u32).map(|variable| (variable, Some(variable / 10)));
    let guards = guarded.chain((100..104).map(|variable| (variable, None)));
    Recording {
        words,
        guards: guards.collect(),
    }
}

/// Takes away last frames until ends for all open blocks fit in `most` frames, and adds these.
pub fn close_blocks(random: &mut Random, words: &mut Vec<u32>, most: usize) {
    loop {
        let mut depths = [0usize; 256];
        for word in words.iter() {
            let depth = &mut depths[(word >> 16 & 255) as usize];
            match word >> 24 {
                5 => *depth += 1,
                6 => *depth = depth.saturating_sub(1),
                _ => {}
            }
        }
        if words.len() + depths.iter().sum::<usize>() <= most {
            let mut ends: Vec<u32> = (0..256)
                .flat_map(|thread| vec![6 << 24 | thread << 16; depths[thread as usize]])
                .collect();
            random.shuffle(&mut ends);
            words.extend(ends);
            return;
        }
        words.pop();
    }
}

/// Sweeps of exchanges of independent neighbours.
pub fn exchange(random: &mut Random, words: &mut [u32], sweeps: usize) {
    for _ in 0..sweeps {
        for place in 1..words.len() {
            if random.chance(600) && independent(words[place - 1], words[place]) {
                words.swap(place - 1, place);
            }
        }
    }
}

/// One exchange of different neighbours that are not independent, if there are any; those of
/// different threads or of any, at random.
pub fn forbidden_exchange(random: &mut Random, words: &mut [u32]) {
    let any_thread = random.chance(300);
    let places: Vec<usize> = (1..words.len())
        .filter(|&place| {
            let (left, right) = (words[place - 1], words[place]);
            let same_thread = left >> 16 & 255 == right >> 16 & 255;
            left != right && (any_thread || !same_thread) && !independent(left, right)
        })
        .collect();
    if let (Some(&first), Some(&last)) = (places.first(), places.last()) {
        let any = random.pick(&places);
        let place = random.pick(&[first, last, any, any]);
        words.swap(place - 1, place);
    }
}

/// Moves one read across writes of its variable by other threads, if there are any that it meets
/// before a frame of its own thread.
pub fn pass_writes(random: &mut Random, words: &mut [u32]) {
    let mut moves = Vec::new();
    let reads = words.iter().enumerate();
    for (from, &read) in reads.filter(|(_, word)| *word >> 24 == 3) {
        let other_thread = |&to: &usize| words[to] >> 16 & 255 != read >> 16 & 255;
        let writes = |&to: &usize| words[to] >> 24 == 4 && words[to] as u16 == read as u16;
        let behind = (from + 1..words.len()).take_while(other_thread);
        let before = (0..from).rev().take_while(other_thread);
        moves.extend(behind.chain(before).filter(writes).map(|to| (from, to)));
    }
    if moves.is_empty() {
        return;
    }
    let (from, to) = random.pick(&moves);
    if from < to {
        words[from..=to].rotate_left(1);
    } else {
        words[to..=from].rotate_right(1);
    }
}

/// Makes one to three small changes to the frames of a recording; most are then refused.
pub fn damage_frames(random: &mut Random, words: &mut Vec<u32>) {
    for _ in 0..random.between(1, 3) {
        if words.is_empty() {
            words.push(edge_word(random));
            continue;
        }
        let (place, other) = (random.below(words.len()), random.below(words.len()));
        match random.below(40) {
            0..10 => words.insert(place, edge_word(random)),
            10..16 => drop(words.remove(place)),
            16..22 => words.insert(place, words[place]),
            22..26 => words[place] ^= 1 << random.below(32),
            26..30 => words.swap(place, other),
            30..33 => words.splice(place..place, [5 << 24; 16]).for_each(drop),
            33..36 => {
                let acquire = words.iter().rposition(|word| word >> 24 == 1);
                let place = acquire.unwrap_or(place);
                let again = [words[place]; MOST_HOLDS as usize];
                words.splice(place..place, again).for_each(drop);
            }
            36..39 => words[place] ^= 3 << 24,
            _ => words.resize(random.between(4096, 4099), words[place]),
        }
    }
}

pub fn text_of_words(words: &[u32]) -> Vec<u8> {
    let mut text = Vec::with_capacity(words.len() * 9);
    for word in words {
        for digit in (0..8).rev() {
            text.push(b"0123456789ABCDEF"[(word >> (4 * digit) & 15) as usize]);
        }
        text.push(b'\n');
    }
    text
}

/// A guard list of these guards in random order; a few are left out or given another lock.
pub fn guard_words(random: &mut Random, guards: &[(u32, Option<u32>)]) -> Vec<u32> {
    let mut words = Vec::new();
    for &(variable, guard) in guards {
        if let Some(lock) = guard {
            match random.below(40) {
                0 => {}
                1 => words.push(variable << 16 | random.below(64) as u32),
                _ => words.push(variable << 16 | lock),
            }
        }
    }
    random.shuffle(&mut words);
    words
}

/// Adds lines to a guard list that may be refused by 11 or 12.
pub fn damage_guards(random: &mut Random, words: &mut Vec<u32>) {
    for _ in 0..random.between(1, 3) {
        let variable = random.pick(&[0, 5, 1022, 1023, 1024, 65535]);
        let lock = random.pick(&[0, 1, 62, 63, 64, 65535]);
        let mut word = variable << 16 | lock;
        if !words.is_empty() && random.chance(500) {
            word = random.pick(words);
            if random.chance(300) {
                word = word & 0xFFFF_0000 | lock;
            }
        }
        words.insert(random.between(0, words.len()), word);
    }
}

/// Makes one to three small changes to a text.
pub fn damage_text(random: &mut Random, text: &mut Vec<u8>) {
    for _ in 0..random.between(1, 3) {
        let lines = text.len() / 9;
        let line_start = 9 * random.between(0, lines);
        if text.is_empty() {
            text.push(random.pick(b"\n\r0Af x"));
            continue;
        }
        let place = random.below(text.len());
        match random.below(11) {
            0 => text[place] ^= 1 << random.below(8),
            1 => drop(text.remove(place)),
            2 => text.insert(
                place,
                random.pick(b"0123456789ABCDEFabcdefG/:@`\r\n \0\xFF"),
            ),
            3 => text[place] = random.pick(b"0123456789ABCDEFabcdefG/:@`\r\n \0\xFF"),
            4 => text[place..].make_ascii_lowercase(),
            5 => text.insert((line_start + 8).min(text.len()), b'\r'),
            6 => drop(text.pop()),
            7 => text.insert(line_start, b'\n'),
            8 => text.truncate(place),
            9 => drop(text.drain(..line_start)),
            _ => {
                // A digit for a digit: the text stays readable, the frame changes.
                if text[place] != b'\n' {
                    text[place] = random.pick(b"0123456789ABCDEF");
                }
            }
        }
    }
}
