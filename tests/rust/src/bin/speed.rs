//! A benchmark, not a test: `trace_check`, `trace_equal`, the serial orders, the displacements,
//! `trace_write` and `trace_line_read` of the archives against the plain Rust checker.
//! Arguments: an optional number of rounds.

use gambozuri::raw;
use std::hint::black_box;
use std::time::Instant;
use trace_tests::library::line_read;
use trace_tests::random::{close_blocks, recording, text_of_words, Plan, Random};
use trace_tests::{plain, Fields, FieldsOut};

const SEED: u64 = 7;
const ROUNDS: usize = 101;
const FRAMES: usize = 4096;
/// About so many bytes of text are read in one round.
const ROUND_BYTES: usize = 64 * 9 * FRAMES;
/// Lengths that show how the time of equality, serial orders and displacements grows.
const LENGTHS: [usize; 3] = [64, 512, FRAMES];
/// About so many frames are taken in one round of these.
const ROUND_FRAMES: usize = 64 * FRAMES;
const DIFFERENT: usize = 64;
/// Verdict lines that are read in turn, and how often in one round.
const LINES: usize = 1024;
const LINE_REPEATS: usize = 64;

type Check = fn(&[u8], &mut [u8]) -> u8;

struct Workload {
    name: &'static str,
    kind: u8,
    texts: Vec<Vec<u8>>,
}

/// Random and reducible with inferred guards. No lock is taken again by its holder.
fn reducible(random: &mut Random, frames: usize) -> Vec<u32> {
    reducible_with(random, frames, 0)
}

/// As `reducible`; inner acquires and their releases have this weight.
fn reducible_with(random: &mut Random, frames: usize, inner: usize) -> Vec<u32> {
    let plan = Plan {
        threads: random.between(1, 32),
        locks: random.between(1, 64),
        variables: random.between(1, 1024),
        frames,
        nesting: random.between(1, 3),
        inner,
        unprotected: 0,
        careless: 0,
        wild: 0,
    };
    recording(random, &plan).words
}

fn workloads() -> Vec<Workload> {
    let random = &mut Random::new(SEED);
    let different = (0..64)
        .map(|_| text_of_words(&reducible(random, FRAMES)))
        .collect();
    let period = [
        0x0501_0000,
        0x0101_0003,
        0x0301_0005,
        0x0401_0005,
        0x0301_0006,
        0x0401_0006,
        0x0201_0003,
        0x0601_0000,
    ];
    // An access without a lock comes first; the rest is sound.
    let violating = [vec![0x0300_0000], reducible(random, FRAMES - 1)].concat();
    let mut refused = text_of_words(&reducible(random, FRAMES));
    *refused.last_mut().expect("not empty") = b'\r';
    let again = (0..64)
        .map(|_| text_of_words(&reducible_with(random, FRAMES, 1)))
        .collect();
    let one = |name, kind, text| Workload {
        name,
        kind,
        texts: vec![text],
    };
    vec![
        Workload {
            name: "64 random reducible recordings in turn",
            kind: 0,
            texts: different,
        },
        one(
            "one periodic recording",
            0,
            text_of_words(&period.repeat(FRAMES / 8)),
        ),
        one("violation at frame 0", 4, text_of_words(&violating)),
        one("refusal in the last line", 0x81, refused),
        one("empty text", 0, Vec::new()),
        Workload {
            name: "64 random ones, some locks taken again",
            kind: 0,
            texts: again,
        },
    ]
}

/// Nanoseconds per call over one round.
fn round(check: Check, texts: &[Vec<u8>], repeats: usize, line: &mut [u8]) -> f64 {
    let start = Instant::now();
    for _ in 0..repeats {
        for text in texts {
            black_box(check(black_box(text), black_box(line)));
        }
    }
    start.elapsed().as_nanos() as f64 / (repeats * texts.len()) as f64
}

fn median(mut times: Vec<f64>) -> f64 {
    times.sort_by(f64::total_cmp);
    times[times.len() / 2]
}

/// Medians of the library and of Rust; each goes first in every other round.
fn medians(
    rounds: usize,
    mut library: impl FnMut() -> f64,
    mut rust: impl FnMut() -> f64,
) -> (f64, f64) {
    let mut library_times = Vec::new();
    let mut rust_times = Vec::new();
    for number in 0..=rounds {
        let (library_time, rust_time);
        if number % 2 == 0 {
            library_time = library();
            rust_time = rust();
        } else {
            rust_time = rust();
            library_time = library();
        }
        // The first round warms up.
        if number > 0 {
            library_times.push(library_time);
            rust_times.push(rust_time);
        }
    }
    (median(library_times), median(rust_times))
}

fn check_rows(rounds: usize) {
    println!("Recordings of {FRAMES} frames; medians of {rounds} interleaved rounds, ns per call.");
    println!("The line buffer (33 bytes) is not cleared between calls.");
    println!(
        "{:40} {:>10} {:>10} {:>13}",
        "", "library", "Rust", "library/Rust"
    );
    let (mut line, mut plain_line) = ([0; 33], [0; 33]);
    for workload in workloads() {
        for text in &workload.texts {
            assert_eq!(raw::trace_check(text, &mut line), workload.kind);
            assert_eq!(plain::check(text, &mut plain_line), workload.kind);
            assert_eq!(line, plain_line);
        }
        let bytes: usize = workload.texts.iter().map(|text| text.len() + 1000).sum();
        let repeats = (ROUND_BYTES / bytes).max(1);
        let (library, rust) = medians(
            rounds,
            || round(raw::trace_check, &workload.texts, repeats, &mut line),
            || round(plain::check, &workload.texts, repeats, &mut plain_line),
        );
        let ratio = library / rust;
        println!(
            "{:40} {library:>10.0} {rust:>10.0} {ratio:>13.2}",
            workload.name
        );
    }
}

// Equality, serial orders and displacements.

/// A recording and its serial order.
struct Pair {
    words: Vec<u32>,
    serial: Vec<u32>,
}

/// What is lent, as long as the longest recording.
#[derive(Debug, PartialEq)]
struct Out {
    words: Vec<u32>,
    moves: Vec<i32>,
}

impl Out {
    fn new() -> Out {
        Out {
            words: vec![0; FRAMES],
            moves: vec![0; FRAMES],
        }
    }
}

/// Takes the recording, its serial order and an output; replies as the library.
type Call = fn(&[u32], &[u32], &mut Out) -> u64;

struct Row {
    name: &'static str,
    /// All variables are unprotected, as with an empty list; otherwise guards are inferred.
    unprotected: bool,
    library: Call,
    rust: Call,
}

/// As much of an output as the recording is long.
fn room<'a, T>(out: &'a mut [T], words: &[u32]) -> &'a mut [T] {
    &mut out[..words.len()]
}

const ROWS: [Row; 5] = [
    Row {
        name: "equality with the serial order",
        unprotected: false,
        library: |words, serial, _| raw::trace_equal(words, serial),
        rust: |words, serial, _| plain::equal(words, serial),
    },
    Row {
        name: "serial order, declared, empty list",
        unprotected: true,
        library: |words, _, out| {
            raw::trace_serial_declared(&[], words, room(&mut out.words, words))
        },
        rust: |words, _, out| plain::serial_declared(&[], words, room(&mut out.words, words)),
    },
    Row {
        name: "serial order, inferred",
        unprotected: false,
        library: |words, _, out| raw::trace_serial_inferred(words, room(&mut out.words, words)),
        rust: |words, _, out| plain::serial_inferred(words, room(&mut out.words, words)),
    },
    Row {
        name: "displacements, declared, empty list",
        unprotected: true,
        library: |words, _, out| raw::trace_moves_declared(&[], words, room(&mut out.moves, words)),
        rust: |words, _, out| plain::moves_declared(&[], words, room(&mut out.moves, words)),
    },
    Row {
        name: "displacements, inferred",
        unprotected: false,
        library: |words, _, out| raw::trace_moves_inferred(words, room(&mut out.moves, words)),
        rust: |words, _, out| plain::moves_inferred(words, room(&mut out.moves, words)),
    },
];

/// Random, reducible, closed and of just this length.
fn pair(random: &mut Random, frames: usize, unprotected: bool) -> Pair {
    loop {
        let plan = Plan {
            threads: random.between(2, 32),
            locks: random.between(1, 64),
            variables: random.between(1, 1024),
            frames,
            nesting: random.between(1, 3),
            inner: 0,
            unprotected: if unprotected { 1000 } else { 0 },
            careless: 0,
            wild: 0,
        };
        let mut words = recording(random, &plan).words;
        close_blocks(random, &mut words, frames);
        let mut serial = vec![0; frames];
        let written = match unprotected {
            true => plain::serial_declared(&[], &words, &mut serial),
            false => plain::serial_inferred(&words, &mut serial),
        };
        if words.len() == frames {
            assert_eq!(written, frames as u64);
            return Pair { words, serial };
        }
    }
}

/// Nanoseconds per call over one round.
fn round_of_pairs(call: Call, pairs: &[Pair], repeats: usize, out: &mut Out) -> f64 {
    let start = Instant::now();
    for _ in 0..repeats {
        for Pair { words, serial } in pairs {
            black_box(call(black_box(words), black_box(serial), black_box(out)));
        }
    }
    start.elapsed().as_nanos() as f64 / (repeats * pairs.len()) as f64
}

fn order_rows(rounds: usize) {
    println!();
    println!("{DIFFERENT} random reducible closed recordings in turn; medians as above.");
    println!(
        "{:40} {:>10} {:>10} {:>13} {:>17}",
        "", "library", "Rust", "library/Rust", "ns per frame"
    );
    let random = &mut Random::new(SEED);
    let (mut out, mut plain_out) = (Out::new(), Out::new());
    for row in ROWS {
        for frames in LENGTHS {
            let pairs: Vec<Pair> = (0..DIFFERENT)
                .map(|_| pair(random, frames, row.unprotected))
                .collect();
            for Pair { words, serial } in &pairs {
                let reply = (row.library)(words, serial, &mut out);
                assert_eq!(reply, (row.rust)(words, serial, &mut plain_out));
                assert!(reply == 1 || reply == frames as u64);
                assert_eq!(out, plain_out);
            }
            let repeats = (ROUND_FRAMES / (frames * pairs.len())).max(1);
            let (library, rust) = medians(
                rounds,
                || round_of_pairs(row.library, &pairs, repeats, &mut out),
                || round_of_pairs(row.rust, &pairs, repeats, &mut plain_out),
            );
            let (library_each, rust_each) = (library / frames as f64, rust / frames as f64);
            println!(
                "{:40} {library:>10.0} {rust:>10.0} {:>13.2} {library_each:>8.2} {rust_each:>8.2}",
                format!("{}, {frames}", row.name),
                library / rust
            );
        }
    }
}

// Texts and verdict lines.

type Write = fn(&[u32], &mut [u8], usize) -> u64;

/// Nanoseconds per call over one round.
fn round_of_writes(write: Write, recordings: &[Vec<u32>], text: &mut [u8]) -> f64 {
    let start = Instant::now();
    for words in recordings {
        black_box(write(black_box(words), black_box(text), black_box(0)));
    }
    start.elapsed().as_nanos() as f64 / recordings.len() as f64
}

/// The fields of a line; none if it is refused.
type ReadLine = fn(&[u8]) -> Option<Fields>;

fn library_fields(line: &[u8]) -> Option<Fields> {
    let mut fields = Fields::default();
    let reply = line_read(
        line,
        FieldsOut {
            kind: &mut fields.kind,
            frame: &mut fields.frame,
            thread: &mut fields.thread,
            begin: &mut fields.begin,
            commit: &mut fields.commit,
            locks: &mut fields.locks,
        },
    );
    (reply == 0).then_some(fields)
}

/// Nanoseconds per call over one round.
fn round_of_lines(read: ReadLine, lines: &[[u8; 33]]) -> f64 {
    let start = Instant::now();
    for _ in 0..LINE_REPEATS {
        for line in lines {
            black_box(read(black_box(line)));
        }
    }
    start.elapsed().as_nanos() as f64 / (LINE_REPEATS * lines.len()) as f64
}

/// A line as a check leaves it: reducible, a violation or a refusal.
fn kept_line(random: &mut Random) -> [u8; 33] {
    let kind = random.pick(&[0x00, 0x00, 0x01, 0x02, 0x03, 0x04, 0x81, 0x87, 0x88]);
    let frame = random.below(FRAMES) as u16;
    let mut fields = Fields {
        kind,
        frame,
        thread: 0,
        begin: 0xFFFF,
        commit: 0xFFFF,
        locks: 0,
    };
    if (0x01..=0x04).contains(&kind) {
        fields.thread = random.below(32) as u8;
        fields.begin = random.below(FRAMES) as u16;
        fields.commit = random.below(FRAMES) as u16;
        fields.locks = random.draw();
    }
    let line = fields.line().into_bytes();
    line.try_into().expect("33 bytes")
}

fn text_rows(rounds: usize) {
    println!();
    println!("{DIFFERENT} random reducible recordings and {LINES} verdict lines in turn; medians as above.");
    println!(
        "{:40} {:>10} {:>10} {:>13}",
        "", "library", "Rust", "library/Rust"
    );
    let row = |name: &str, (library, rust): (f64, f64)| {
        let ratio = library / rust;
        println!("{name:40} {library:>10.0} {rust:>10.0} {ratio:>13.2}");
    };
    let random = &mut Random::new(SEED);
    let recordings: Vec<Vec<u32>> = (0..DIFFERENT).map(|_| reducible(random, FRAMES)).collect();
    let (mut text, mut plain_text) = (vec![0; 9 * FRAMES], vec![0; 9 * FRAMES]);
    for words in &recordings {
        assert_eq!(raw::trace_write(words, &mut text, 0), 9 * FRAMES as u64);
        assert_eq!(plain::write(words, &mut plain_text, 0), 9 * FRAMES as u64);
        assert!(text == plain_text && text == text_of_words(words));
    }
    row(
        "writing 4,096 frames",
        medians(
            rounds,
            || round_of_writes(raw::trace_write, &recordings, &mut text),
            || round_of_writes(plain::write, &recordings, &mut plain_text),
        ),
    );
    let lines: Vec<[u8; 33]> = (0..LINES).map(|_| kept_line(random)).collect();
    for line in &lines {
        let fields = library_fields(line);
        assert!(fields.is_some() && fields == plain::fields_of_line(line));
    }
    row(
        "reading a verdict line",
        medians(
            rounds,
            || round_of_lines(library_fields, &lines),
            || round_of_lines(plain::fields_of_line, &lines),
        ),
    );
}

fn main() {
    let rounds = match std::env::args().nth(1) {
        Some(argument) => argument.parse().expect("the number of rounds is a number"),
        None => ROUNDS,
    };
    check_rows(rounds);
    order_rows(rounds);
    text_rows(rounds);
}
