//! A soak: every call of the archives under systematic and random adversarial input, compared
//! with the reference on the reply and on the whole content of every lent buffer.
//! Each family of input takes its fixed cases and a fixed number of random rounds, then further
//! rounds until its share of the time is over. The answers are counted; one that can occur and did
//! not is a failure.
//! Arguments: an optional seed, then an optional number of seconds, at most 110.

use std::process::exit;
use std::time::{Duration, Instant};
use trace_tests::adversarial::*;
use trace_tests::case::{frames, text, Call, Case, CALLS, REFERENCE};
use trace_tests::library::LIBRARY;
use trace_tests::random::{
    close_blocks, damage_guards, damage_text, interleaved, text_of_words, Random,
};
use trace_tests::random_case::{
    exact_list, random_case, random_recording, random_right, random_said_len,
};
use trace_tests::table::{
    occurs, print_edges, print_inner, print_moved, print_table, Answer, Tallies,
};
use trace_tests::{
    declared, equal, guards, inferred, read, Fields, LINE_BYTES, MOST_FRAMES, VARIABLES,
};

const DEFAULT_SEED: u64 = 1;
const DEFAULT_SECONDS: u64 = 60;
const MOST_SECONDS: u64 = 110;
/// A soak that takes longer fails.
const LIMIT: Duration = Duration::from_secs(120);

struct Family {
    name: &'static str,
    /// Of the time, as a weight.
    share: u32,
    fixed: fn(&mut Soak),
    round: fn(&mut Soak),
    least_rounds: usize,
    /// Kinds of verdict and refusals that it must show.
    kinds: &'static [usize],
    refusals: &'static [usize],
}

const FAMILIES: [Family; 13] = [
    Family {
        name: "bytes",
        share: 8,
        fixed: each_byte,
        round: random_bytes,
        least_rounds: 5_000,
        kinds: &[0, 1, 4],
        refusals: &[1, 4, 5, 6, 7, 8, 11, 12],
    },
    Family {
        name: "lengths",
        share: 14,
        fixed: each_length,
        round: random_lengths,
        least_rounds: 3_000,
        kinds: &[0, 4],
        refusals: &[1, 2, 3, 13, 14, 15, 16, 17, 21],
    },
    Family {
        name: "operations",
        share: 14,
        fixed: each_operation,
        round: random_operation,
        least_rounds: 2_000,
        kinds: &[0, 1, 2, 3, 4],
        refusals: &[4, 5, 6, 7, 8, 10, 20],
    },
    Family {
        name: "nesting",
        share: 10,
        fixed: each_nesting,
        round: random_nesting,
        least_rounds: 2_000,
        kinds: &[0, 2, 4],
        refusals: &[9, 10, 13, 14],
    },
    Family {
        name: "locks",
        share: 10,
        fixed: each_lock,
        round: random_locks,
        least_rounds: 2_000,
        kinds: &[0, 1, 3, 4],
        refusals: &[7, 8, 13, 14],
    },
    Family {
        name: "holds",
        share: 12,
        fixed: each_hold,
        round: random_holds,
        least_rounds: 2_000,
        kinds: &[0, 3, 4],
        refusals: &[7, 8, 13, 14, 20],
    },
    Family {
        name: "threads",
        share: 12,
        fixed: each_alternation,
        round: random_alternation,
        least_rounds: 200,
        kinds: &[0],
        refusals: &[14, 15, 21],
    },
    Family {
        name: "guards",
        share: 12,
        fixed: each_guard_list,
        round: random_guards,
        least_rounds: 2_000,
        kinds: &[0, 1],
        refusals: &[1, 11, 12],
    },
    Family {
        name: "candidates",
        share: 8,
        fixed: each_shrinking,
        round: random_sets,
        least_rounds: 1_000,
        kinds: &[0, 4],
        refusals: &[13],
    },
    Family {
        name: "equality",
        share: 8,
        fixed: each_pair,
        round: random_exchanges,
        least_rounds: 200,
        kinds: &[],
        refusals: &[2, 7, 8],
    },
    Family {
        name: "texts",
        share: 8,
        fixed: each_room,
        round: random_rooms,
        least_rounds: 2_000,
        kinds: &[],
        refusals: &[2, 4, 5, 6, 7, 8, 9, 10, 19, 20],
    },
    Family {
        name: "lines",
        share: 8,
        fixed: each_field,
        round: random_verdict_line,
        least_rounds: 5_000,
        kinds: &[],
        refusals: &[17, 18],
    },
    Family {
        name: "general",
        share: 12,
        fixed: |_| {},
        round: general,
        least_rounds: 300,
        kinds: &[0, 4],
        refusals: &[1, 2, 4, 7, 8, 10, 20],
    },
];

struct Soak {
    start: Instant,
    random: Random,
    family: &'static str,
    /// Counts of this family, by call.
    tallies: Tallies,
}

impl Soak {
    fn fail(&self, reason: &str) -> ! {
        println!("{reason}");
        println!("FAILED: soak, family {}", self.family);
        exit(1)
    }

    /// A case without input. Its buffers are long enough in most cases; `count` words, or their
    /// lines, are to be written.
    fn case(&mut self, call: Call, count: usize) -> Case {
        let random = &mut self.random;
        let mut case = Case::new(call);
        case.fill = random.draw();
        case.line_len = match random.below(30) {
            0 => random.below(LINE_BYTES),
            _ => random.between(LINE_BYTES, 40),
        };
        case.sets_len = match random.below(30) {
            0 => random.pick(&[0, 1, VARIABLES - 2, VARIABLES - 1]),
            _ => VARIABLES + random.pick(&[0, 0, 0, 1, 2, 30]),
        };
        case.words_len = match random.below(30) {
            0 => random.between(0, count),
            1 => count.saturating_sub(1),
            _ => count + random.pick(&[0, 0, 1, 2, 20]),
        };
        if call == Call::Write {
            (case.text_len, case.place) = random_room(random, 9 * count);
        }
        case
    }

    fn take(&mut self, case: Case) {
        match case.compare(&[&LIBRARY]) {
            Ok(outcome) => self.tallies[case.call as usize].count(&case, &outcome),
            Err(difference) => self.fail(&difference),
        }
        if self.start.elapsed() > LIMIT {
            self.fail("120 seconds have passed");
        }
    }

    fn text(&mut self, call: Call, text: &[u8]) {
        let mut case = self.case(call, text.len().div_ceil(9));
        case.text = text.to_vec();
        self.take(case);
    }

    /// For calls without a guard list the list is not used.
    fn words(&mut self, call: Call, list: &[u8], words: &[u32]) {
        let mut case = self.case(call, words.len());
        (case.text, case.frames) = (list.to_vec(), words.to_vec());
        self.take(case);
    }

    fn pair(&mut self, left: &[u32], right: &[u32]) {
        let mut case = self.case(Call::Equal, 0);
        (case.frames, case.right) = (left.to_vec(), right.to_vec());
        self.take(case);
    }

    /// The calls that take a recording's text.
    fn recording_text(&mut self, text: &[u8]) {
        self.text(Call::Check, text);
        self.text(Call::Read, text);
        let reply = read(text, &mut [0; MOST_FRAMES]);
        self.refusal(reply, text, &[]);
    }

    /// What is said, into an output about as long as need be.
    fn say(&mut self, mut case: Case) {
        let whole = case.run(&REFERENCE).reply as usize;
        case.text_len = random_said_len(&mut self.random, whole);
        self.take(case);
    }

    /// A reply of a call on a text or on words, in words.
    fn refusal(&mut self, reply: u64, text: &[u8], words: &[u32]) {
        let mut case = self.case(Call::SayRefusal, 0);
        (case.text, case.frames) = (text.to_vec(), words.to_vec());
        (case.reply, case.source) = (reply, self.random.below(6) as u32);
        self.say(case);
    }

    /// The verdict on a recording, in words.
    fn verdict(&mut self, call: Call, list: &[u8], words: &[u32]) {
        let mut line = vec![0; LINE_BYTES];
        match call {
            Call::Declared => declared(list, words, &mut line),
            _ => inferred(words, &mut [0; VARIABLES], &mut line),
        };
        let mut case = self.case(Call::SayVerdict, 0);
        (case.text, case.frames) = (line, words.to_vec());
        self.say(case);
    }

    /// The calls that take a guard list.
    fn list(&mut self, list: &[u8], words: &[u32]) {
        self.text(Call::Guards, list);
        self.words(Call::Declared, list, words);
        self.words(Call::SerialDeclared, list, words);
        self.words(Call::MovesDeclared, list, words);
        self.words(Call::CommitsDeclared, list, words);
        self.refusal(guards(list), list, &[]);
    }

    /// Written from a place on into a text of a length.
    fn write(&mut self, words: &[u32], (text_len, place): (usize, usize)) {
        let mut case = self.case(Call::Write, words.len());
        case.frames = words.to_vec();
        (case.text_len, case.place) = (text_len, place);
        self.take(case);
    }

    fn verdict_line(&mut self, line: &[u8]) {
        self.text(Call::LineRead, line);
        for call in [Call::SayLine, Call::SayVerdict] {
            let mut case = self.case(call, 0);
            case.text = line.to_vec();
            self.say(case);
        }
    }

    /// The fields written into lines about as long as need be, and their line read.
    fn fields(&mut self, fields: Fields) {
        for line_len in LINE_BYTES - 1..=LINE_BYTES + 1 {
            let mut case = self.case(Call::LineWrite, 0);
            (case.fields, case.line_len) = (fields, line_len);
            self.take(case);
        }
        self.verdict_line(fields.line().as_bytes());
        for call in [Call::SayKind, Call::SayRefusalName] {
            let mut case = self.case(call, 0);
            case.fields = fields;
            self.say(case);
        }
    }

    /// The calls that take a recording.
    fn recording(&mut self, list: &[u8], words: &[u32]) {
        self.recording_text(&text_of_words(words));
        for call in [
            Call::Declared,
            Call::Inferred,
            Call::SerialDeclared,
            Call::SerialInferred,
            Call::MovesDeclared,
            Call::MovesInferred,
            Call::CommitsDeclared,
            Call::CommitsInferred,
            Call::Write,
        ] {
            self.words(call, list, words);
        }
        self.verdict(Call::Declared, list, words);
        self.verdict(Call::Inferred, list, words);
        self.refusal(equal(words, &[]), &[], words);
        let right = random_right(&mut self.random, words);
        self.pair(words, &right);
        self.pair(&pairs(2), words);
    }
}

// Bytes.

/// Every byte at every place of four lines.
fn each_byte(soak: &mut Soak) {
    let recording = text("01000003 01010004 03000005 02000003");
    let list = text("00050003 00060004 00070005 00080006");
    for place in 0..recording.len() {
        for byte in 0..=255 {
            let changed = |text: &[u8]| [&text[..place], &[byte], &text[place + 1..]].concat();
            soak.recording_text(&changed(&recording));
            soak.list(&changed(&list), &frames("01000003 03000005"));
        }
    }
}

fn random_bytes(soak: &mut Soak) {
    let random = &mut soak.random;
    let len = match random.below(20) {
        0 => random.between(36_800, 36_900),
        _ => random.below(64),
    };
    let good = match random.below(2) {
        0 => text_of_words(&pairs(len / 9)),
        _ => text_of_words(&guard_lines(random, (len / 9).min(VARIABLES))),
    };
    let bytes: Vec<u8> = match random.below(3) {
        0 => (0..len).map(|_| random.draw() as u8).collect(),
        1 => {
            let line = |place| {
                if place % 9 == 8 {
                    b'\n'
                } else {
                    random.draw() as u8
                }
            };
            (0..len).map(line).collect()
        }
        _ => {
            let mut bytes = good;
            for _ in 0..random.between(1, 4).min(bytes.len()) {
                let place = random.below(bytes.len());
                bytes[place] = random.draw() as u8;
            }
            bytes
        }
    };
    soak.recording_text(&bytes);
    soak.list(&bytes, &frames("01000003 03000005"));
}

// Lengths.

/// The lengths 0 to 2, and those at most two away from this one.
fn near(len: usize) -> Vec<usize> {
    (0..3)
        .chain(len.saturating_sub(2).max(3)..len + 3)
        .collect()
}

/// Texts of this length: lines of a recording, lines of a list, digits, junk; each as it is and
/// with an LF at its end.
fn texts_of_length(random: &mut Random, len: usize) -> Vec<Vec<u8>> {
    let lines = text_of_words(&pairs(len / 9 + 1));
    let list = text_of_words(&guard_lines(random, VARIABLES).repeat(len / 9 / VARIABLES + 1));
    let digits = (0..len).map(|_| random.pick(b"0123456789ABCDEF")).collect();
    let junk = (0..len).map(|_| random.draw() as u8).collect();
    let mut texts = Vec::new();
    for mut text in [lines, list, digits, junk] {
        text.truncate(len);
        texts.push(text.clone());
        if let Some(last) = text.last_mut() {
            *last = b'\n';
            texts.push(text);
        }
    }
    texts
}

fn text_lengths(soak: &mut Soak) {
    for len in (0..=40).chain(36_846..=36_882) {
        for text in texts_of_length(&mut soak.random, len) {
            soak.recording_text(&text);
            soak.list(&text, &pairs(2));
        }
    }
}

/// An empty recording, a reducible one, one that is not reducible, one that is refused.
const RECORDINGS: [&str; 4] = ["", "05000000 06000000", "03000005", "05000000 FFFFFFFF"];

fn line_lengths(soak: &mut Soak) {
    for line_len in 0..=40 {
        for words in RECORDINGS {
            for list in ["", "00050002", "04000000"] {
                let mut case = soak.case(Call::Declared, 0);
                (case.text, case.frames, case.line_len) = (text(list), frames(words), line_len);
                soak.take(case);
            }
            let mut case = soak.case(Call::Inferred, 0);
            (case.frames, case.line_len) = (frames(words), line_len);
            soak.take(case);
            let mut case = soak.case(Call::Check, 0);
            (case.text, case.line_len) = (text(words), line_len);
            soak.take(case);
        }
        for kind in EDGE_KINDS {
            let mut case = soak.case(Call::LineWrite, 0);
            (case.fields, case.line_len) = (random_fields(&mut soak.random), line_len);
            case.fields.kind = kind;
            soak.take(case);
        }
        soak.verdict_line(&vec![b'0'; line_len]);
    }
}

/// Buffers for the words of a text.
fn word_lengths(soak: &mut Soak) {
    for lines in [0, 1, 2, 3, 33, MOST_FRAMES - 1, MOST_FRAMES] {
        for words_len in near(lines) {
            for extra in [&b""[..], b"x", b"\n"] {
                let mut case = soak.case(Call::Read, lines);
                case.text = [&text_of_words(&pairs(lines)), extra].concat();
                case.words_len = words_len;
                soak.take(case);
            }
        }
    }
}

fn set_lengths(soak: &mut Soak) {
    for sets_len in near(VARIABLES).into_iter().chain([2 * VARIABLES]) {
        for words in RECORDINGS {
            for line_len in [LINE_BYTES - 1, LINE_BYTES] {
                let mut case = soak.case(Call::Inferred, 0);
                (case.frames, case.sets_len, case.line_len) = (frames(words), sets_len, line_len);
                soak.take(case);
            }
        }
    }
}

/// Outputs of the serial orders and of the displacements.
fn output_lengths(soak: &mut Soak) {
    for count in [0, 1, 2, 3, 10, MOST_FRAMES - 2, MOST_FRAMES] {
        let mut recordings = vec![pairs(count), vec![word(READ, 0, 5); count]];
        if count >= 3 {
            recordings.extend(furthest(count));
        }
        for words_len in near(count) {
            for words in &recordings {
                let listing = |call: &Call| call.orders() || call.commits();
                for call in CALLS.into_iter().filter(listing) {
                    let mut case = soak.case(call, count);
                    (case.frames, case.words_len) = (words.clone(), words_len);
                    soak.take(case);
                }
            }
        }
    }
}

/// Recordings about as long as can be.
fn frame_counts(soak: &mut Soak) {
    let most = pairs(MOST_FRAMES);
    for count in MOST_FRAMES - 2..=MOST_FRAMES + 3 {
        for last in [word(END, 0, 0), word(READ, 0, 5), u32::MAX] {
            let mut words = pairs(count);
            words[count - 1] = last;
            soak.recording(b"", &words);
            soak.pair(&words, &words);
            soak.pair(&words, &most);
            soak.pair(&most, &words);
        }
    }
}

fn each_length(soak: &mut Soak) {
    text_lengths(soak);
    line_lengths(soak);
    word_lengths(soak);
    set_lengths(soak);
    output_lengths(soak);
    frame_counts(soak);
}

/// All lengths at random in one case.
fn random_lengths(soak: &mut Soak) {
    let units = soak.random.below(12);
    let made = interleaved(&mut soak.random, units, true);
    let count = made.words.len();
    for call in CALLS {
        let mut case = soak.case(call, count);
        let random = &mut soak.random;
        case.text = match call {
            Call::Check | Call::Read => text_of_words(&made.words),
            Call::LineRead | Call::SayLine | Call::SayVerdict => random_line(random),
            _ => exact_list(random, &made.guards),
        };
        if random.chance(200) {
            case.text.truncate(random.between(0, case.text.len()));
        }
        (case.frames, case.right) = (made.words.clone(), made.words.clone());
        case.right.truncate(random.between(0, count));
        case.fields = random_fields(random);
        case.line_len = random.below(41);
        case.words_len = random.pick(&near(count));
        case.sets_len = random.pick(&near(VARIABLES));
        if call.says() {
            // The frames are not those of the line.
            case.frames.clear();
            case.reply = (random.between(2, 255) as u64) << 32;
            soak.say(case);
        } else {
            soak.take(case);
        }
    }
}

// Operations.

const EDGE_THREADS: [u32; 4] = [0, 31, 32, 255];
const EDGE_OBJECTS: [u32; 6] = [0, 63, 64, 1023, 1024, 65535];

/// Every operation byte, alone, and after frames that leave threads 0 and 31 with their locks
/// before commit, without locks after commit, or with their locks as often as can be.
fn each_operation(soak: &mut Soak) {
    let before = frames("05000000 051F0000 01000000 011F003F 04000000");
    let after = frames("05000000 051F0000 01000005 02000005 011F0006 021F0006");
    let full = frames("01000000 011F003F").repeat(MOST_HOLDS);
    let list = text("00000000");
    for operation in 0..=255 {
        for thread in EDGE_THREADS {
            for object in EDGE_OBJECTS {
                let last = word(operation, thread, object);
                soak.text(Call::Guards, &text_of_words(&[last]));
                for prefix in [&[], &before[..], &after, &full] {
                    soak.recording(&list, &[prefix, &[last]].concat());
                }
            }
        }
    }
}

/// Any operation, at edges of threads and objects, somewhere in a random recording.
fn random_operation(soak: &mut Soak) {
    let random = &mut soak.random;
    let mut made = random_recording(random, Call::Declared, false);
    let operation = match random.below(2) {
        0 => random.below(256),
        _ => random.between(ACQUIRE as usize, END as usize),
    };
    let (thread, object) = (random.pick(&EDGE_THREADS), random.pick(&EDGE_OBJECTS));
    let place = random.between(0, made.words.len());
    made.words
        .insert(place, word(operation as u32, thread, object));
    let list = exact_list(random, &made.guards);
    soak.recording(&list, &made.words);
}

// Nesting.

/// The greatest nesting, the begin beyond it, and the end below zero: in each thread alone, and
/// with all threads nested at once.
fn each_nesting(soak: &mut Soak) {
    let all_begins = all_deep(&mut soak.random, BEGIN);
    let all_ends = all_deep(&mut soak.random, END);
    let all_closed = [&all_begins[..], &all_ends].concat();
    soak.recording(b"", &all_begins);
    soak.recording(b"", &all_closed);
    for thread in 0..THREADS {
        let (begin, end) = (word(BEGIN, thread, 0), word(END, thread, 0));
        let (begins, ends) = ([begin; MOST_DEPTH], [end; MOST_DEPTH]);
        let closed = [begins, ends].concat();
        for words in [
            &begins[..],
            &[&begins[..], &[begin]].concat(),
            &closed,
            &[&closed[..], &[end]].concat(),
            &[&closed[..], &closed].concat(),
            &[end],
            &[&all_begins[..], &[begin]].concat(),
            &[&all_begins[..], &[end, begin, begin]].concat(),
            &[&all_closed[..], &[end]].concat(),
            &[&all_closed[..], &begins, &[begin]].concat(),
        ] {
            soak.recording(b"", words);
        }
    }
}

fn random_nesting(soak: &mut Soak) {
    let mut words = nesting_walk(&mut soak.random);
    if soak.random.chance(500) {
        close_blocks(&mut soak.random, &mut words, MOST_FRAMES);
    }
    soak.recording(b"", &words);
}

// Locks.

/// Each lock, where one thread has taken all.
fn each_lock(soak: &mut Soak) {
    for lock in 0..LOCKS {
        let (thread, other) = (lock % THREADS, (lock + 1) % THREADS);
        let held = all_locks(&mut soak.random, thread);
        let (take, give) = (word(ACQUIRE, thread, lock), word(RELEASE, thread, lock));
        let (other_takes, other_gives) = (word(ACQUIRE, other, lock), word(RELEASE, other, lock));
        let (read, begin) = (word(READ, thread, 5), word(BEGIN, thread, 0));
        let list = text_of_words(&[5 << 16 | lock]);
        for rest in [
            &[take][..],
            &[other_takes],
            &[other_gives],
            &[read, give, read],
            &[read, give, take, read],
            &[give, give],
            &[give, other_takes, take],
            &[give, other_takes, other_gives, take],
            &[give, other_takes, give],
            &[begin, give, take],
            &[begin, read, give, read, other_takes, read],
        ] {
            soak.recording(&list, &[&held[..], rest].concat());
        }
    }
}

fn random_locks(soak: &mut Soak) {
    let random = &mut soak.random;
    let mut made = lock_walk(random);
    if random.chance(500) {
        close_blocks(random, &mut made.words, MOST_FRAMES);
    }
    let list = exact_list(random, &made.guards);
    soak.recording(&list, &made.words);
}

// Locks taken again.

/// Each lock, held once or more often by one thread: taken once more, let go once, taken by another
/// thread, let go until it is free; in no block, in one around all, and in one that begins with the
/// lock held.
fn each_hold(soak: &mut Soak) {
    for lock in 0..LOCKS {
        let (thread, other) = (lock % THREADS, (lock + 1) % THREADS);
        let (take, give) = (word(ACQUIRE, thread, lock), word(RELEASE, thread, lock));
        let (other_takes, other_gives) = (word(ACQUIRE, other, lock), word(RELEASE, other, lock));
        let free = word(ACQUIRE, thread, lock ^ 1);
        let (read, begin) = (word(READ, thread, 5), word(BEGIN, thread, 0));
        let list = text_of_words(&[5 << 16 | lock]);
        for holds in [1, 2, 3, MOST_HOLDS - 1, MOST_HOLDS, MOST_HOLDS + 1] {
            let (takes, gives) = (vec![take; holds], vec![give; holds]);
            for rest in [
                &[][..],
                &[take, give],
                &[give, read],
                &[give, take, free, read],
                &[other_takes],
                &[give, other_takes],
                &[give, other_gives],
                &[&gives[..], &[other_takes, other_gives, take]].concat(),
                &[&gives[1..], &[free]].concat(),
                &[&gives[1..], &[read, take, read]].concat(),
                &[&gives[..], &[give]].concat(),
                &[&gives[..], &[read]].concat(),
                &[&gives[..], &[take]].concat(),
                &[&gives[..], &[free]].concat(),
            ] {
                for inside in [&[take][..], &[begin, take], &[take, begin]] {
                    soak.recording(&list, &[inside, &takes[1..], rest].concat());
                }
            }
        }
    }
}

fn random_holds(soak: &mut Soak) {
    let random = &mut soak.random;
    let mut made = hold_walk(random);
    if random.chance(500) {
        close_blocks(random, &mut made.words, MOST_FRAMES);
    }
    let list = exact_list(random, &made.guards);
    soak.recording(&list, &made.words);
}

// Threads.

/// Leaves out so many last frames.
fn alternate(soak: &mut Soak, blocks: usize, steps: usize, left_out: usize) {
    let random = &mut soak.random;
    let mut made = alternation(random, blocks, steps);
    made.words.truncate(made.words.len() - left_out);
    let list = exact_list(random, &made.guards);
    soak.recording(&list, &made.words);
}

/// Up to 4,096 frames, closed and open.
fn each_alternation(soak: &mut Soak) {
    for (blocks, steps) in [(1, LEAST_STEPS), (1, 39), (1, 128), (2, 64), (16, 8)] {
        for left_out in [0, 1, 31, 32, 33, 100] {
            alternate(soak, blocks, steps, left_out);
        }
    }
}

fn random_alternation(soak: &mut Soak) {
    let random = &mut soak.random;
    let steps = random.between(LEAST_STEPS, 64);
    let most = MOST_FRAMES / THREADS as usize / steps;
    let blocks = random.between(1, most.min(3));
    let left_out = match random.below(4) {
        0 => random.below(THREADS as usize * steps),
        _ => 0,
    };
    alternate(soak, blocks, steps, left_out);
}

// Guard lists.

/// Lists of all lengths, and longer ones.
fn each_guard_list(soak: &mut Soak) {
    for count in 0..=VARIABLES {
        let list = text_of_words(&guard_lines(&mut soak.random, count));
        let words = every_variable(&mut soak.random);
        soak.list(&list, &words);
    }
    let all = guard_lines(&mut soak.random, VARIABLES);
    for count in [1_025, 2_048, 4_095, 4_096, 4_097, 5_000] {
        let lines: Vec<u32> = all.iter().copied().cycle().take(count).collect();
        soak.list(&text_of_words(&lines), &pairs(2));
        soak.list(&text_of_words(&vec![lines[0]; count]), &pairs(2));
    }
    for count in [0, 1, 2, VARIABLES - 2, VARIABLES - 1, VARIABLES] {
        faulty_lists(soak, &all[..count]);
    }
}

/// A line that is refused at each end of a list.
fn faulty_lists(soak: &mut Soak, lines: &[u32]) {
    let good = text_of_words(lines);
    for faulty in [
        &b"04000000\n"[..],
        b"00000040\n",
        b"FFFF0000\n",
        b"0000FFFF\n",
        b"04000000\r\n",
        b"000000AA\r\n",
        b"000000aa\n",
        b"000000aa",
        b"\n",
        b"\r\n",
    ] {
        soak.list(&[&good[..], faulty].concat(), &pairs(2));
        soak.list(&[faulty, &good].concat(), &pairs(2));
    }
    for &line in lines.first().iter().chain(&lines.last()) {
        soak.list(&text_of_words(&[lines, &[*line]].concat()), &pairs(2));
        soak.list(&text_of_words(&[&[*line], lines].concat()), &pairs(2));
    }
    let carriage_returns = String::from_utf8_lossy(&good).replace('\n', "\r\n");
    soak.list(carriage_returns.as_bytes(), &pairs(2));
    soak.list(&good.to_ascii_lowercase(), &pairs(2));
}

fn random_guards(soak: &mut Soak) {
    let random = &mut soak.random;
    let count = random.pick(&[3, 30, 300, VARIABLES]);
    let count = random.between(0, count);
    let mut lines = guard_lines(random, count);
    let fault = random.below(4);
    if fault == 0 {
        damage_guards(random, &mut lines);
    }
    let mut list = text_of_words(&lines);
    if fault == 1 {
        damage_text(random, &mut list);
    }
    let words = match random.below(2) {
        0 => every_variable(random),
        _ => random_recording(random, Call::Declared, false).words,
    };
    soak.list(&list, &words);
}

// Candidate sets.

/// The list gives the variable a guard, or not.
fn shrink(soak: &mut Soak, variable: u32, left: usize) {
    let random = &mut soak.random;
    let words = shrinking(random, variable, left);
    let lock = random.below(LOCKS as usize) as u32;
    let list = match random.below(2) {
        0 => Vec::new(),
        _ => text_of_words(&[variable << 16 | lock]),
    };
    soak.recording(&list, &words);
}

/// From all locks to two, to one, and to none; and from one lock to none, for each variable.
fn each_shrinking(soak: &mut Soak) {
    for variable in 0..VARIABLES as u32 {
        let (thread, lock) = (variable % THREADS, variable % LOCKS);
        let read = word(READ, thread, variable);
        let (acquire, release) = (word(ACQUIRE, thread, lock), word(RELEASE, thread, lock));
        let list = text_of_words(&[variable << 16 | lock]);
        soak.recording(&list, &[acquire, read, release]);
        soak.recording(&list, &[acquire, read, release, read]);
    }
    for variable in [0, 1, 62, 63, 64, 511, 1022, 1023] {
        for left in 0..3 {
            for _ in 0..10 {
                shrink(soak, variable, left);
            }
        }
    }
}

fn random_sets(soak: &mut Soak) {
    if soak.random.chance(300) {
        let variable = soak.random.below(VARIABLES) as u32;
        let left = soak.random.below(3);
        shrink(soak, variable, left);
    } else {
        let words = turns(&mut soak.random);
        soak.recording(b"", &words);
    }
}

// Equality.

/// Two recordings both ways round, alone and with frames of a further thread between.
fn both_ways(soak: &mut Soak, left: &[u32], right: &[u32]) {
    let between = |words: &[u32]| {
        let (first, rest) = words.split_at(1);
        [first, &pairs(MOST_FRAMES - words.len()), rest].concat()
    };
    soak.pair(left, right);
    soak.pair(right, left);
    if soak.random.chance(20) {
        soak.pair(&between(left), &between(right));
    }
}

/// Two threads and the same variable or lock, or two of them.
fn each_item(soak: &mut Soak) {
    for variable in 0..VARIABLES as u32 {
        let (one, two) = (1 + variable % 16, 17 + variable % 15);
        for first in [READ, WRITE].map(|operation| word(operation, one, variable)) {
            for operation in [READ, WRITE] {
                for other in [variable, variable ^ 1] {
                    let second = word(operation, two, other);
                    both_ways(soak, &[first, second], &[second, first]);
                }
            }
        }
    }
    for lock in 0..LOCKS {
        let (one, two) = (1 + lock % 16, 17 + lock % 15);
        for holds in [1, 2, MOST_HOLDS] {
            let used = |thread, lock| {
                let (take, give) = (word(ACQUIRE, thread, lock), word(RELEASE, thread, lock));
                [vec![take; holds], vec![give; holds]].concat()
            };
            for other in [lock, lock ^ 1] {
                let (left, right) = (used(one, lock), used(two, other));
                both_ways(
                    soak,
                    &[&left[..], &right].concat(),
                    &[&right[..], &left].concat(),
                );
            }
        }
        // An inner acquire passes no access of its own thread, but one of another thread, also of
        // the variable of its lock's number.
        let take = word(ACQUIRE, one, lock);
        for read in [word(READ, one, lock), word(READ, two, lock)] {
            both_ways(soak, &[take, take, read], &[take, read, take]);
        }
    }
}

/// Reads of all threads but the last around a write of that one: in reverse, and each of them moved
/// across the write; in short recordings and in the longest ones.
fn each_reader(soak: &mut Soak) {
    let turn = THREADS as usize - 1;
    for variable in [0, 1, 63, 64, 1023] {
        for (frames, write) in [
            (2 * turn + 1, turn),
            (MOST_FRAMES, turn),
            (MOST_FRAMES, MOST_FRAMES - 1 - turn),
        ] {
            let words = readers(variable, frames, &[write]);
            let mut reversed = words.clone();
            reversed[..write].reverse();
            reversed[write + 1..].reverse();
            soak.pair(&words, &reversed);
            soak.pair(&reversed, &words);
            for distance in 1..=turn {
                let (mut behind, mut before) = (words.clone(), words.clone());
                behind[write - distance..=write].rotate_left(1);
                before[write..=write + distance].rotate_right(1);
                for moved in [behind, before] {
                    soak.pair(&words, &moved);
                    soak.pair(&moved, &reversed);
                }
            }
        }
    }
}

fn each_pair(soak: &mut Soak) {
    each_item(soak);
    each_reader(soak);
}

/// A long recording, and one that is equal to it or nearly.
fn random_exchanges(soak: &mut Soak) {
    let case = random_case(&mut soak.random, Call::Equal, true);
    soak.take(case);
}

// Texts that are written.

/// Sound recordings of several lengths, and one refused by each number but 2.
const WRITTEN: [&str; 13] = [
    "",
    "03000005",
    "05000000 06000000",
    "05010000 01010000 03010000 02010000 01010000 03010001 02010000 06010000",
    "05000000 07000000",
    "03200000",
    "04000400",
    "0100003F 0100003F 0200003F 0200003F",
    "0100003F 011F003F",
    "0100003F 021F003F",
    "051F0000 051F0000 051F0000 051F0000 051F0000 051F0000 051F0000 051F0000 \
     051F0000 051F0000 051F0000 051F0000 051F0000 051F0000 051F0000 051F0000",
    "061F0000",
    "011F003F 011F003F 011F003F 011F003F 011F003F 011F003F 011F003F 011F003F \
     011F003F 011F003F 011F003F 011F003F 011F003F 011F003F 011F003F 011F003F",
];

/// Each boundary of the room, for short recordings and for the longest ones.
fn each_room(soak: &mut Soak) {
    for words in WRITTEN.map(frames) {
        for room in rooms(9 * words.len()) {
            soak.write(&words, room);
        }
    }
    for count in MOST_FRAMES - 1..=MOST_FRAMES + 1 {
        for room in rooms(9 * count) {
            soak.write(&pairs(count), room);
        }
    }
    for place in 0..=40 {
        for text_len in 0..=60 {
            soak.write(&pairs(2), (text_len, place));
        }
    }
}

/// A random recording into each of some rooms.
fn random_rooms(soak: &mut Soak) {
    let case = random_case(&mut soak.random, Call::Write, false);
    for _ in 0..4 {
        soak.words(Call::Write, b"", &case.frames);
    }
    let room = soak.random.pick(&rooms(9 * case.frames.len()));
    soak.write(&case.frames, room);
    soak.take(case);
}

// Verdict lines.

/// Every kind with the other fields at their edges; every byte at every place of a line; lines of
/// other lengths.
fn each_field(soak: &mut Soak) {
    for kind in 0..=255 {
        for thread in [0, 31, 32, 255] {
            for place in EDGE_PLACES {
                for locks in EDGE_LOCKS {
                    let begin = soak.random.pick(&EDGE_PLACES);
                    let commit = soak.random.pick(&EDGE_PLACES);
                    soak.fields(Fields {
                        kind,
                        frame: place,
                        thread,
                        begin,
                        commit,
                        locks,
                    });
                }
            }
        }
    }
    for digits in [
        "03000401000000030000000000000001",
        "00000000FFFFFFFF0000000000000000",
        "FFFFFFFFFFFFFFFFFFFFFFFFFFFFFFFF",
    ] {
        let line = format!("{digits}\n").into_bytes();
        for place in 0..line.len() {
            for byte in 0..=255 {
                let mut changed = line.clone();
                changed[place] = byte;
                soak.verdict_line(&changed);
            }
        }
        for near in near_lines(&line) {
            soak.verdict_line(&near);
        }
        for len in 0..=100 {
            soak.verdict_line(&line.repeat(4)[..len]);
        }
    }
}

fn random_verdict_line(soak: &mut Soak) {
    let line = random_line(&mut soak.random);
    soak.verdict_line(&line);
    let fields = random_fields(&mut soak.random);
    soak.fields(fields);
}

// General.

fn general(soak: &mut Soak) {
    for call in CALLS {
        let long = soak.random.chance(300);
        let case = random_case(&mut soak.random, call, long);
        soak.take(case);
    }
}

// Runs.

/// `until` is the end of the family's share.
fn run_family(family: &Family, soak: &mut Soak, until: Duration) {
    (family.fixed)(soak);
    let mut rounds = 0;
    while rounds < family.least_rounds || soak.start.elapsed() < until {
        (family.round)(soak);
        rounds += 1;
    }
    let cases: usize = soak.tallies.iter().map(|tally| tally.cases).sum();
    println!(
        "{:12}{cases:9} cases, {rounds:7} random rounds",
        family.name
    );
    let kinds = family.kinds.iter().map(|&kind| Answer::Kind(kind));
    let refusals = family
        .refusals
        .iter()
        .map(|&number| Answer::Refusal(number));
    for answer in kinds.chain(refusals) {
        if !occurs(answer, &soak.tallies) {
            soak.fail(&format!("{answer:?} did not occur"));
        }
    }
}

/// The argument at this place as a number.
fn argument(place: usize, default: u64) -> u64 {
    match std::env::args().nth(place) {
        Some(argument) => argument.parse().expect("a number"),
        None => default,
    }
}

fn main() {
    let (seed, seconds) = (argument(1, DEFAULT_SEED), argument(2, DEFAULT_SECONDS));
    assert!(seconds <= MOST_SECONDS, "at most {MOST_SECONDS} seconds");
    println!("soak: seed {seed}, {seconds} seconds");
    let start = Instant::now();
    let mut seeds = Random::new(seed);
    let mut totals = Tallies::default();
    let all_shares: u32 = FAMILIES.iter().map(|family| family.share).sum();
    let mut shares = 0;
    for family in &FAMILIES {
        let mut soak = Soak {
            start,
            random: Random::new(seeds.draw()),
            family: family.name,
            tallies: Default::default(),
        };
        shares += family.share;
        run_family(
            family,
            &mut soak,
            Duration::from_secs(seconds) * shares / all_shares,
        );
        for (total, tally) in totals.iter_mut().zip(&soak.tallies) {
            total.add(tally);
        }
    }
    let complete =
        print_table(&totals) & print_moved(&totals) & print_inner(&totals) & print_edges(&totals);
    if !complete {
        println!("FAILED: soak, something that can occur did not");
        exit(1);
    }
    let cases: usize = totals.iter().map(|tally| tally.cases).sum();
    println!("soak: {cases} cases, all replies and buffers agree");
}
